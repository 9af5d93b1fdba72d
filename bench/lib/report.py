"""The lines that measures print."""


def of_processor(many, what, seconds):
    return f"{many / seconds:,.0f} {what}/s of processor time"


def on_clock(many, what, seconds):
    return f"{many / seconds:,.0f} {what}/s on the clock"


def speeds(many, what, run):
    """All that a run tells."""
    of_both = f"{of_processor(many, what, run.processor)}, {on_clock(many, what, run.wall)}"
    return f"{of_both}, peak {run.peak:.1f} MiB"


def print_growth(what, seconds):
    """How the second of two times compares with the first."""
    print(f"{what}: {seconds[1] / seconds[0]:.2f} times")


def print_head(*columns):
    """The head of a table."""
    print(f"| {' | '.join(columns)} |\n|{'---|' * len(columns)}")


def print_row(*cells):
    print(f"| {' | '.join(map(str, cells))} |", flush=True)
