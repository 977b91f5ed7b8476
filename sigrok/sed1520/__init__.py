# SPDX-License-Identifier: GPL-2.0-or-later

'''
The SED1520 is an LCD controller with an 8-bit bus. This decoder follows one or
two of them, the left and the right chip of a 122 by 32 panel. Only the
80-family bus is decoded, with the strobes RD and WR; the 68-family bus, with E
and R/W, is not.

Each bus cycle of a selected chip, ended by the rise of RD or WR, is told in
the words of the chip's sheet. The binary output "trace" has a record of 4
bytes for it, which the tools of Pedralume replay; what they refuse by number
is warned of. Data, A0 and the selects are those of the last sample before the
rise: in the sample of the rise a slow analyser sees the bus released already.
'''

from .pd import Decoder
