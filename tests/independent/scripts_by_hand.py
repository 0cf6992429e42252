"""All scripts that were written by hand with the output due, but for those of the papers' samples (`paper_runs`)."""

from conduct_examples import CONDUCT_BY_HAND
from replay_examples import REPLAY_BY_HAND
from resends_examples import RESENDS_BY_HAND
from resends_setting_examples import RESENDS_SETTING_BY_HAND
from session_examples import SESSION_BY_HAND
from swapped_examples import SWAPPED_BY_HAND

SCRIPTS_BY_HAND = (SESSION_BY_HAND + CONDUCT_BY_HAND + RESENDS_BY_HAND + REPLAY_BY_HAND + RESENDS_SETTING_BY_HAND
                   + SWAPPED_BY_HAND)
