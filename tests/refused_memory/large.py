"""Calls on a table too large for every request to be refused in turn: the last request before the call, those of the call, and one more. Where
that one is refused and the call is done, it makes no further request: none could come before that one."""

DONE = "done; 2109440 in place; 2109440 cloned once; made 0, 0 left\n"
REFUSED = "no memory; 0 in place; 0 cloned once; made 0, 0 left\n"
# The program gives up where the table itself is refused.
NO_TABLE = "; made 0, 0 left\n"


def tests():
    """Each call, and what it must write where one request is refused. An append that has room makes none of its own."""
    return [
        Large("append_turned_in_room", {3: (NO_TABLE, 9), 4: (DONE, 0)}),
        Large("to_vec_turned", {1: (NO_TABLE, 9), 2: (REFUSED, 0), 3: (DONE, 0)}),
    ]


class Large:
    HEAD = ["| call on a large table | requests refused |", "|---|--:|"]

    def __init__(self, name, ends):
        self.name, self.ends, self.faults = name, ends, []

    def counting(self):
        """No inputs: which request is which is known."""
        return {}

    def refusing(self, counted, refused):
        """Inputs that refuse each request of which something is known, where this request is refused."""
        return {f"{self.name}.{nth}": f"{self.name} early {refused - nth}\n".encode() for nth in self.ends}

    def judge(self, ran):
        for nth, wanted in self.ends.items():
            told, status, _ = ran[f"{self.name}.{nth}"]
            if (told, status) != wanted:
                self.faults.append(f"request {nth}: wanted {wanted}\n    got {(told, status)}")

    def row(self):
        return f"| {self.name} | {len(self.ends)} |"
