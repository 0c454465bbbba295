"""The page by keys alone."""

from browser import SHIFT, TAB
from page.scripts import FOCUS
from serving import Differs, same

MOST_TABS = 12


def focus_on(window, wanted):
    """Presses Tab until something has the focus, which must be visible."""
    for _ in range(MOST_TABS):
        window.press(TAB)
        name, visible = window.run(FOCUS)
        if name == wanted:
            same(f"whether the focus on {wanted} is visible", visible, True)
            return
    raise Differs(f"{MOST_TABS} times Tab did not reach {wanted}, but {name}")


def focus_before(window, wanted):
    """Presses Shift and Tab once, which must focus this, visibly."""
    window.press_with(SHIFT, TAB)
    same("the focus before the last one, and whether it is visible", window.run(FOCUS), [wanted, True])
