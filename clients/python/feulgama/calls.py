"""The requests as methods, the same for Shim and for AsyncShim."""
from __future__ import annotations

from feulgama import requests


class Calls:
    """One method for each entry of the table in feulgama/requests.py."""
    put = requests.put
    put_text = requests.put_text
    remove = requests.remove
    lease_create = requests.lease_create
    lease_add = requests.lease_add
    lease_delete = requests.lease_delete
    gc = requests.gc
    create = requests.create
    start = requests.start
    pause = requests.pause
    resume = requests.resume
    kill = requests.kill
    delete = requests.delete
    state = requests.state
    output = requests.output
    break_ = requests.break_
    unbreak = requests.unbreak
    step = requests.step
    inspect = requests.inspect
    peek = requests.peek

    @staticmethod
    def new_id() -> str:
        """An id that was not made before."""
        return requests.new_id()
