"""Why a run of `aig` failed, where, and what to do: what a second look at its files shows. This is the command
`aig-explain`, and what the errors of this package say."""

from .look import explanation

__all__ = ["explanation"]
