"""The feeder's own following, whose frames go to the program's standard input; and what pages tell of it."""
import typing

from namecoin_feeder.following import Follower
from namecoin_feeder.pauses import Pauses
from namecoin_feeder.server import Feed

from .statuses import Over


class ProgramFeed(Feed):
    """A feed whose frames are asked of the program by `ask`, each when its reply is wanted."""

    name, title = "the program's output", "the program"

    def __init__(self, ask):
        super().__init__()
        self.ask, self.frames = ask, []

    def reach(self):
        """The program is there from the start to the end."""

    def send(self, frames):
        self.frames += frames

    def reply(self, seconds=0.0):
        return self.ask(self.frames.pop(0))

    def drop(self):
        self.frames = []
        self.forget()


class News(typing.NamedTuple):
    """How the following goes. `trouble` is None where all is well, and `heard` the moment when something went well last, if ever."""

    trouble: typing.Optional[str] = None
    is_held: bool = False
    heard: typing.Optional[float] = None


class Told(Pauses):
    """The feeder's pauses; what they are made for is news."""

    def __init__(self, follower, *words, **how):
        self.follower = follower
        super().__init__(*words, **how)

    def wait(self, trouble):
        self.follower.news = self.follower.news._replace(trouble=str(trouble))
        super().wait(trouble)


class Following(Follower):
    """The feeder's follower; `news` is read by other threads, and is replaced as a whole. `at_tip` is called whenever the program stands
    at the node's tip."""

    def __init__(self, source, server, pauses, progress, choices, clock, sleep, at_tip):
        self.news, self.at_tip = News(), at_tip
        made = Told(self, *pauses, progress.say, clock, sleep)
        super().__init__(source, server, made, progress, choices, clock, sleep)

    def went_well(self):
        super().went_well()
        self.news = News(heard=self.clock())

    def is_level(self, best):
        self.at_tip()
        super().is_level(best)

    def wait(self, why):
        self.news = self.news._replace(trouble=why)
        super().wait(why)

    def hold(self, stop):
        self.news = self.news._replace(trouble=str(stop), is_held=True)
        super().hold(stop)
        self.news = self.news._replace(is_held=False)


def sleeper(ending):
    """A sleep that ends with the explorer."""

    def sleep(seconds):
        if ending.wait(seconds):
            raise Over

    return sleep
