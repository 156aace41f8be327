"""example.py [LIBRARY]

The library from Python: a field read, a drawing in slices and its time, a plan and its listing.
LIBRARY is the path of the shared library, or the loader finds it. Ends with 0."""
import sys
from array import array

import buckethare as bh


def read_field(library: bh.Library) -> None:
    """Size 8 at bit address 12 over words F000h, 000Ah."""
    answer, value = library.field_read(array('H', [0xF000, 0x000A]), 12, 8)
    print(f'field: answer {answer}, value {value:02X}')


# FILL XY clipped to a window: 53 by 15 of 60 by 20 pixels. CONTROL has W 3.
FILL = bh.Settings(daddr=0x004400E4, dptch=0x800, wstart=0x004900EB, wend=0x005F0140,
                   dydx=0x0014003C, color1=0xFFFF, control=0xC0, psize=4)


def fill_in_slices(library: bh.Library) -> None:
    """It is stopped after 500 pixels."""
    memory = array('H', [0] * 11208)
    answer, place, v = bh.STOPPED, 0, 0
    while answer == bh.STOPPED:
        answer, drawn = library.draw(memory, bh.FILL_XY, FILL, place, v, 500)
        print(f'fill: answer {answer}, place {drawn.place}, visited {drawn.visited}, '
              f'V {drawn.v}, DADDR {drawn.daddr:X}')
        place, v = drawn.place, drawn.v
    answer, drawn = library.draw(memory[:11207], bh.FILL_XY, FILL, 0, 0, 500)
    print(f'fill in a memory one word shorter: answer {answer}')


def time_fill(library: bh.Library) -> None:
    """The same FILL: example 13-1 of source document 000."""
    answer, time = library.fill_states(11208, bh.FILL_XY, FILL)
    print(f'fill: answer {answer}, setup {time.setup}, transfer {time.transfer}, '
          f'adjustment {time.adjustment}, states {time.states}')


def run_plan(library: bh.Library) -> None:
    """The scope's plan."""
    answer, plan, table = library.plan_read(b'memory\t4\n'
                                            b'draw\tFILL L\n'
                                            b'axis\tPSIZE\t4\t8\n'
                                            b'axis\tCOLOR1\t255\t65535\n'
                                            b'axis\tDYDX\t65538\n')
    print(f'plan: answer {answer}, {plan.words} words, drawing {plan.draw}, {plan.points} points')
    heading = bytearray(bh.LINE)
    print(heading[:library.put_heading(heading)].decode(), end='')
    image, memory = array('H', [0] * plan.words), array('H', [0] * plan.words)
    answer, lines = library.lines(table, plan.axes, plan.draw, 0, plan.points, image, memory)
    print(lines.decode(), end='')


def main() -> None:
    library = bh.Library(*sys.argv[1:2])
    read_field(library)
    fill_in_slices(library)
    time_fill(library)
    run_plan(library)


main()
