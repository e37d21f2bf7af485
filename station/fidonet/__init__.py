"""The formats of FidoNet: addresses, packets, stored messages, JAM bases and the lines of echomail."""
