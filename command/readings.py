"""The fields of frames: name, unit of everyday use, decimals and range, by the kind of the frame
and the tree's soil (docs/SPECIFICATION.md, "Frames")."""

from decimal import Decimal
from typing import NamedTuple

import trees


class Reading(NamedTuple):
    """A number of two bytes in a frame: so many decimals of the unit are one step of it."""

    name: str
    column: str  # in a table for `encode`
    unit: str
    decimals: int
    low: int  # in steps
    high: int
    is_signed: bool = False

    def said(self, steps):
        """In its unit, as a person writes it."""
        return f"{plain(steps, self.decimals)} {self.unit}".rstrip()

    @property
    def range(self):
        return f"{plain(self.low, self.decimals)} to {plain(self.high, self.decimals)}"

    @property
    def ends(self):
        """The steps that two bytes hold."""
        return (-32768, 32767) if self.is_signed else (0, 65535)

    def steps(self, number):
        """Of the number in two bytes."""
        return number - 65536 if self.is_signed and number > 32767 else number

    def holds(self, steps):
        return self.low <= steps <= self.high


def plain(steps, decimals):
    """12.3 for 1230 at two decimals."""
    digits = f"{Decimal(steps).scaleb(-decimals):f}"
    return digits.rstrip("0").rstrip(".") if "." in digits else digits


MISSING = 0xFFFF  # in the place of an ozone that is missing

OZONE = Reading("ozone", "ozone_ppb", "ppb", 1, 0, 5000)
PPFD = Reading("PPFD", "ppfd_umol_m2_s", "µmol m⁻² s⁻¹", 0, 0, 3000)
RADIATION = Reading("global radiation", "radiation_w_m2", "W m⁻²", 0, 0, 1500)
TEMPERATURE = Reading("temperature", "temperature_c", "°C", 1, -500, 600, True)
VPD = Reading("VPD", "vpd_kpa", "kPa", 3, 0, 10000)
HUMIDITY = Reading("humidity", "humidity_percent", "%", 1, 0, 1000)
WIND = Reading("wind", "wind_m_s", "m/s", 2, 0, 6000)
SUCTION = Reading("soil suction", "soil_suction_kpa", "kPa", 0, 0, 10000)
WATER = Reading("soil water", "soil_water_percent", "%", 1, 0, 1000)
PRESSURE = Reading("air pressure", "pressure_hpa", "hPa", 1, 5000, 11000)

ALL = (OZONE, PPFD, RADIATION, TEMPERATURE, VPD, HUMIDITY, WIND, SUCTION, WATER, PRESSURE)

CEILING = Reading("ozone ceiling", "", "ppb", 1, 1, 5000)
LEVEL = Reading("critical level", "", "mmol m⁻²", 2, 1, 10000)
END = Reading("end", "", "°C days", 0, 1, 5000)  # of leaf age by warmth

PARAMETERS = (
    Reading("gmax", "", "mmol m⁻² s⁻¹", 0, 1, 500),
    Reading("f_min", "", "%", 0, 1, 99),
    Reading("light_a", "", "", 4, 1, 200),
    Reading("Tmin", "", "°C", 0, -20, 60, True),
    Reading("Topt", "", "°C", 0, -20, 60, True),
    Reading("Tmax", "", "°C", 0, -20, 60, True),
    Reading("VPD max", "", "kPa", 3, 0, 10000),
    Reading("VPD min", "", "kPa", 3, 0, 10000),
    Reading("suction max", "", "kPa", 0, 0, 10000),
    Reading("suction min", "", "kPa", 0, 0, 10000),
    Reading("leaf", "", "cm", 1, 1, 200),
    Reading("a", "", "%", 0, 0, 100),
    Reading("e", "", "%", 0, 0, 100),
    Reading("f1", "", "days", 0, 0, 200),
    Reading("f4", "", "days", 0, 0, 200),
    Reading("Y", "", "nmol m⁻² s⁻¹", 0, 0, 10),
)


def of_hour(kind, tree):
    """The readings of an hour frame, in its order."""
    moisture = HUMIDITY if kind == 5 else VPD
    soil = WATER if tree in trees.WATER else SUCTION
    seven = (OZONE, PPFD, RADIATION, TEMPERATURE, moisture, WIND, soil)
    return seven + (PRESSURE,) if kind == 4 else seven
