"""A model of the agent in plain Python, and random schedules that go through it and the built program."""
