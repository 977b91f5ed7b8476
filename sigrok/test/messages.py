"""What the decoder warns of, word for word; what the model refuses, by its number."""
EARLY = 'deselected before the rise of the strobe: no record'
NO_POWER = "both strobes low since the capture's start: no record"
CLASH = 'both chips selected for a read: they drive the bus against each other'
BRIEF = 'strobe low for one sample: sample faster, or a glitch'
REFUSED = {
    6: 'RD and WR equal',
    7: 'a byte that is no command',
    8: 'a column set while read-modify-write is on',
    14: 'a column set over 79 (4F hex), the last column of RAM',
}
