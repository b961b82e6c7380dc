"""What brought a row, by its number, in the console's words."""

ORIGINS = {
    1: "its month became live",
    2: "within the span before",
    3: "brought in by the close",
    4: "announced",
    5: "listed at the start",
}
