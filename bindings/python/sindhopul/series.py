"""Series and their names."""

import ctypes
from enum import IntEnum
from typing import NamedTuple, Union

from . import _library
from .refusals import raise_unless_accepted

_NAME_BYTES = 11


class OptionType(IntEnum):
    CALL = 0
    PUT = 1


class Series(NamedTuple):
    """An option series.

    >>> Series.read("OW20X262400")
    Series(month=323, option_type=<OptionType.PUT: 1>, price=2400)
    >>> Series(323, OptionType.PUT, 2400).name()
    'OW20X262400'
    """

    month: int
    option_type: OptionType
    price: int
    """The price of the strike, in whole index points."""

    @classmethod
    def read(cls, name: Union[str, bytes]) -> "Series":
        """Reads the series of a name. Raises the first that holds of NameLengthRefused,
        NameByteRefused and NameSeriesRefused."""
        data = name.encode() if isinstance(name, str) else name
        result = _library.name_read(data, len(data))
        raise_unless_accepted(result.number, result.month)
        return cls(result.month, OptionType(result.type), result.price)

    def name(self) -> str:
        """The name of the series, as OW20L262400. Raises NameSeriesRefused where there is none."""
        name = (ctypes.c_char * _NAME_BYTES)()
        number = _library.name_write(
            name,
            len(name),
            _library.number(self.month),
            _library.number(self.option_type),
            _library.number(self.price),
        )
        raise_unless_accepted(number)
        return name.raw.decode("ascii")
