// The library from Rust: a field read, a drawing in slices and its time, a plan and its listing.
mod buckethare;

use buckethare as bh;
use std::io::Write;

// Size 8 at bit address 12 over words F000h, 000Ah.
fn read_field() {
    let (answer, value) = bh::field_read(&[0xF000, 0x000A], 12, 8, false);
    println!("field: answer {}, value {:02X}", answer, value);
}

// FILL XY clipped to a window: 53 by 15 of 60 by 20 pixels. CONTROL has W 3.
const FILL: bh::Settings = bh::settings(&[
    (bh::DADDR, 0x004400E4),
    (bh::DPTCH, 0x800),
    (bh::WSTART, 0x004900EB),
    (bh::WEND, 0x005F0140),
    (bh::DYDX, 0x0014003C),
    (bh::COLOR1, 0xFFFF),
    (bh::CONTROL, 0xC0),
    (bh::PSIZE, 4),
]);

// It is stopped after 500 pixels.
fn fill_in_slices() {
    let mut memory = vec![0; 11208];
    let (mut answer, mut place, mut v) = (bh::STOPPED, 0, false);
    while answer == bh::STOPPED {
        let (now, out) = bh::draw(&mut memory, bh::FILL_XY, &FILL, place, v, 500);
        println!("fill: answer {}, place {}, visited {}, V {}, DADDR {:X}",
                 now, out[bh::DRAW_PLACE], out[bh::DRAW_VISITED], out[bh::DRAW_V],
                 out[bh::DRAW_DADDR]);
        answer = now;
        place = out[bh::DRAW_PLACE];
        v = out[bh::DRAW_V] != 0;
    }
    let (answer, _) = bh::draw(&mut memory[..11207], bh::FILL_XY, &FILL, 0, false, 500);
    println!("fill in a memory one word shorter: answer {}", answer);
}

// The same FILL: example 13-1 of source document 000.
fn time_fill() {
    let (answer, out) = bh::fill_states(11208, bh::FILL_XY, &FILL);
    println!("fill: answer {}, setup {}, transfer {}, adjustment {}, states {}",
             answer, out[bh::FILL_SETUP], out[bh::FILL_TRANSFER], out[bh::FILL_ADJUSTMENT],
             out[bh::FILL_STATES]);
}

// The scope's plan.
fn run_plan() -> std::io::Result<()> {
    let plan = b"memory\t4\n\
                 draw\tFILL L\n\
                 axis\tPSIZE\t4\t8\n\
                 axis\tCOLOR1\t255\t65535\n\
                 axis\tDYDX\t65538\n";
    let mut table = [0; bh::TABLE];
    let (answer, read) = bh::plan_read(plan, &mut table);
    let (words, points) = (read[bh::PLAN_WORDS], read[bh::PLAN_POINTS]);
    println!("plan: answer {}, {} words, drawing {}, {} points",
             answer, words, read[bh::PLAN_DRAW], points);
    let (mut image, mut memory) = (vec![0; words as usize], vec![0; words as usize]);
    let mut text = vec![0; bh::LINE * points as usize];
    let end = bh::put_heading(&mut text, 0);
    std::io::stdout().write_all(&text[..end])?;
    let (_, end) = bh::lines(&table, read[bh::PLAN_AXES], read[bh::PLAN_DRAW], 0, points,
                             &mut image, &mut memory, &mut text);
    std::io::stdout().write_all(&text[..end])
}

fn main() -> std::io::Result<()> {
    read_field();
    fill_in_slices();
    time_fill();
    run_plan()
}
