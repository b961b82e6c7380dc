//! The numbers that each call of the C interface returns.

// Made from causes.txt by causes.py.

pub const NUMBERS: [(&str, &[u16]); 9] = [
    ("calendar_check", &[0, 11, 12, 13]),
    ("start", &[0, 11, 12, 13, 14, 15, 16, 18, 20, 21]),
    ("session", &[0, 11, 12, 13, 14, 15, 17, 19, 20, 21]),
    ("announce", &[0, 11, 12, 13, 14, 15, 17, 20, 22, 23, 24, 25]),
    ("rows", &[0, 11, 12, 13, 14, 15, 17, 26]),
    ("name_write", &[0, 27, 28]),
    ("name_read", &[0, 27, 29, 28]),
    ("file_write", &[0, 11, 12, 13, 14, 15, 17, 30]),
    ("file_read", &[0, 31, 30]),
];
