"""Scenes of both modes in which every frame is asked against itself (M-102).

A frame is unknown, a parent alone, a child, or a child that a wipe has emptied. Refused additions make none known, and
an opening makes all unknown again. In the second mode the tree is full, too, people ask, and 1 and 2 come first.
"""
from values import LAST, line, words

STATIC, MOVING = 0, 1


class SameFrames:
    """The lines of a scene."""

    def __init__(self, values, mode):
        self.values, self.rng = values, values.rng
        self.people = mode == "bound"
        self.frames = values.frames(5)
        self.lines = ["# Every frame against itself, and against another."]

    def say(self, *parts):
        self.lines.append(line(*parts))

    def add(self, child, parent, kind, pose=None):
        pose = pose or words(self.values.translation() + self.values.rotation())
        self.say("add", child, parent, kind, self.when(), *self.values.said(pose))

    def when(self):
        return self.rng.choice([0, 1, 10**9, LAST])

    def ask(self, *frames):
        for frame in frames or self.rng.sample(self.frames, len(self.frames)):
            self.say("lookup", frame, frame, self.when())
            self.say("common", frame, frame)
            if self.people:
                self.say(self.rng.choice(["show", "why"]), frame, frame, self.when())
            other = self.rng.choice(self.frames)
            self.say("lookup", *self.rng.sample([frame, other], 2), self.when())


def known_scene(values, mode):
    """A root, a static child and under it a moving one; the fourth and fifth frame are never known."""
    scene = SameFrames(values, mode)
    root, child, tip, fourth, fifth = scene.frames
    scene.say("open", 2 if mode == "bound" else 8, 4, scene.rng.choice(["none", 5]))
    scene.ask()
    scene.add(fourth, fifth, STATIC, scene.values.not_finite())
    scene.add(fifth, fourth, MOVING, scene.values.not_unit())
    scene.add(fourth, fourth, STATIC)
    scene.say("wipe", fourth, LAST)
    scene.ask()
    scene.add(child, root, STATIC)
    scene.ask()
    scene.add(tip, child, MOVING)
    scene.ask()
    scene.add(tip, fourth, MOVING)  # held under another
    scene.add(root, tip, STATIC)  # a circle
    if mode == "bound":
        scene.add(fourth, fifth, STATIC)  # the tree is full
    scene.ask()
    scene.say("wipe", tip, LAST)
    scene.say("wipe", tip, LAST)
    scene.ask()
    if mode == "bound":
        scene.say("lend 13 8 55")  # a float short
        scene.ask(root, fourth)
        scene.say("lend 13 8 56")
        scene.say("set head 3 2")  # an age flag of 2; the opening below mends it
        scene.ask(root, fourth)
        scene.say("set head 3 0")
    scene.say("open", 2, 4, "none")
    scene.ask()
    return scene.lines


def scenes(values, mode):
    """The scenes of each mode."""
    return [known_scene(values, mode) for _ in range(2)]
