"""Moments in the house's zone."""
import datetime
import zoneinfo


class Clock:
    def __init__(self, name):
        self.name = name
        self.zone = datetime.timezone.utc if name == 'UTC' else zoneinfo.ZoneInfo(name)

    def moment(self, milliseconds):
        return datetime.datetime.fromtimestamp(milliseconds / 1000, self.zone)

    def time(self, milliseconds):
        return self.moment(milliseconds).strftime('%H:%M:%S') if milliseconds else ''

    def full(self, milliseconds):
        """The day, the time to a millisecond, and the zone."""
        return self.moment(milliseconds).strftime('%Y-%m-%d %H:%M:%S.%f')[:-3] + f' {self.moment(milliseconds).tzname()}' if milliseconds else ''

    def iso(self, milliseconds):
        return self.moment(milliseconds).isoformat(timespec='milliseconds') if milliseconds else None
