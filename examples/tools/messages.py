"""Prints, in hexadecimal, the messages that tools/osken_rows.py sends to switches that come up one after another."""

import sys
from types import SimpleNamespace

sys.path.insert(0, "tools")
from os_ken.ofproto import ofproto_v1_0
from os_ken.ofproto.ofproto_protocol import ProtocolDesc
from osken_rows import Rows


class Printer(ProtocolDesc):
    """Stands for a switch, and prints each message that it is sent."""

    def __init__(self, switch):
        super().__init__(ofproto_v1_0.OFP_VERSION)
        self.id = switch

    def set_xid(self, message):
        message.set_xid(0)

    def send_msg(self, message):
        message.serialize()
        print(message.buf.hex())


application = Rows()
for switch in dict.fromkeys(row["dpid"] for row in application.rows):
    application.give_rows(SimpleNamespace(msg=SimpleNamespace(datapath=Printer(switch))))
