"""The two processors: which instructions each knows, and whether its cycles are counted."""
from dataclasses import dataclass

from device.thumb import narrow_data, narrow_flow, narrow_memory, status, wide_data, wide_flow, wide_memory, wide_multiply
from device.thumb.core import Decoder
from device.thumb.decoding import decoder

NARROW = narrow_data.ROWS + narrow_memory.ROWS + narrow_flow.ROWS
FEW_WIDE = (wide_flow.LINK_ROW, *status.ROWS)
WIDE = FEW_WIDE + wide_flow.ROWS + wide_data.ROWS + wide_multiply.ROWS + wide_memory.ROWS


@dataclass(frozen=True)
class Processor:
    """A processor by its compiler's name. Cycles are those of its manual, with memory that never lets it wait."""

    name: str
    decode: Decoder
    timed: bool


CORTEX_M0_PLUS = Processor("cortex-m0plus", decoder(NARROW, FEW_WIDE), True)
# Its loads, branches and divisions overlap with what stands around them, so that a sum of cycles would be a guess.
CORTEX_M3 = Processor("cortex-m3", decoder(NARROW + narrow_flow.MORE_ROWS, WIDE), False)
BY_NAME = {processor.name: processor for processor in (CORTEX_M0_PLUS, CORTEX_M3)}
