"""An application of os-ken that gives each switch its rows when it comes up.

usage: tools/rows rest < line.rules > rows.json
       NKCTL_ROWS=rows.json osken-manager tools/osken_rows.py
"""

import json
import os
import sys

from os_ken.base.app_manager import OSKenApp
from os_ken.controller import ofp_event
from os_ken.controller.handler import CONFIG_DISPATCHER, set_ev_cls
from os_ken.lib import ofctl_v1_0
from os_ken.ofproto import ofproto_v1_0


def read_rows(path):
    """The rows of a file, a JSON object in each line."""
    try:
        with open(path) as lines:
            return [json.loads(line) for line in lines]
    except (OSError, ValueError) as fault:
        sys.exit(f"osken_rows: NKCTL_ROWS has to name a file that `tools/rows rest` made: {fault}")


class Rows(OSKenApp):
    OFP_VERSIONS = [ofproto_v1_0.OFP_VERSION]

    def __init__(self, *words, **options):
        super().__init__(*words, **options)
        self.rows = read_rows(os.environ.get("NKCTL_ROWS", ""))

    @set_ev_cls(ofp_event.EventOFPSwitchFeatures, CONFIG_DISPATCHER)
    def give_rows(self, event):
        datapath = event.msg.datapath
        rows = [row for row in self.rows if row["dpid"] == datapath.id]
        for row in rows:
            ofctl_v1_0.mod_flow_entry(datapath, row, datapath.ofproto.OFPFC_ADD)
        self.logger.info("switch %d has %d rows", datapath.id, len(rows))
