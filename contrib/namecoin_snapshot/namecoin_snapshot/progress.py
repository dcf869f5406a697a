"""How far the reading is: told as the feeder tells it."""
from namecoin_feeder import progress


class Progress(progress.Progress):
    name, unit = "namecoin_snapshot", "outputs"

    def line(self, count, total):
        return f"{count} outputs of {total}" + (self.speed(count, total) if count < total else "")
