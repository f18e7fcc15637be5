"""The application tools/osken_rows.py with a barrier before the rows and one after them. It ends with the second reply."""

import os
import sys
from pathlib import Path

sys.path.append(str(Path(__file__).resolve().parent.parent / "tools"))
from os_ken.controller import ofp_event
from os_ken.controller.handler import CONFIG_DISPATCHER, MAIN_DISPATCHER, set_ev_cls
from osken_rows import Rows


class Batch(Rows):
    replies = 0

    @set_ev_cls(ofp_event.EventOFPSwitchFeatures, CONFIG_DISPATCHER)
    def give_rows(self, event):
        datapath = event.msg.datapath
        datapath.send_barrier()
        super().give_rows(event)
        datapath.send_barrier()

    @set_ev_cls(ofp_event.EventOFPBarrierReply, [CONFIG_DISPATCHER, MAIN_DISPATCHER])
    def end(self, _event):
        self.replies += 1
        if self.replies == 2:
            os._exit(0)
