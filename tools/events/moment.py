"""Moments in hundredths of a second since 1970, of the years 1970 to 2099."""

import datetime

LAST_MOMENT = 4_102_444_800_00 - 1


def shown_moment(moment):
    """As `2026-11-17T19:20:45.12`."""
    seconds, hundredths = divmod(moment, 100)
    whole = datetime.datetime(1970, 1, 1) + datetime.timedelta(seconds=seconds)
    return f"{whole:%Y-%m-%dT%H:%M:%S}.{hundredths:02}"
