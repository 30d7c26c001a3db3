#!/usr/bin/env python3
"""A week of readings as a station's logger has them, days 180 to 186 of an evergreen: writes
examples/week.csv.

    python3 tests/week.py

Light by the sun's height, temperature and ozone highest in the afternoon, a cloudy day, a dry soil
that dries on; on day 183 the analyser is calibrated from hour 10 to hour 11.
"""

from math import cos, pi

from lot import Lot
from vectors import REPOSITORY

DAYS = range(180, 187)
# light that comes through
CLOUDS = {180: 0.95, 181: 1.0, 182: 0.9, 183: 1.0, 184: 0.45, 185: 0.7, 186: 0.98}
CALIBRATED = {(183, 10), (183, 11)}
NAMES = (
    "day,hour,ozone_ppb,ppfd_umol_m2_s,radiation_w_m2,temperature_c,humidity_percent,wind_m_s,"
    "soil_suction_kpa"
)


def course(hour, highest):
    """From -1 to 1 over the day, 1 at the highest hour."""
    return cos(2 * pi * (hour - highest) / 24)


def hour_row(day, hour, lot):
    sky = CLOUDS[day]
    sun = max(0.0, course(hour, 12.5) + 0.2) / 1.2
    radiation = round(sky * 930 * sun) + (lot.below(15) if sun else 0)
    temperature = 22.5 + 2 * sky + 5.5 * sky * course(hour, 15) + lot.below(9) / 10
    humidity = 58 - 8 * sky - 20 * sky * course(hour, 15) + lot.below(40) / 10
    ozone = 38 + 8 * sky + 21 * sky * course(hour, 15.5) + lot.below(50) / 10
    wind = 1.1 + 0.9 * course(hour, 16) + lot.below(70) / 100
    shown = "" if (day, hour) in CALIBRATED else f"{ozone:.1f}"
    soil = 620 + 6 * (day - 180) + hour // 4
    light = f"{round(1.98 * radiation)},{radiation}"
    return f"{day},{hour},{shown},{light},{temperature:.1f},{humidity:.1f},{wind:.2f},{soil}"


def main():
    lot = Lot(30)
    rows = [hour_row(day, hour, lot) for day in DAYS for hour in range(24)]
    (REPOSITORY / "examples" / "week.csv").write_text("\n".join([NAMES, *rows]) + "\n")


if __name__ == "__main__":
    main()
