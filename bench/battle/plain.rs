//! A plain program that fights the same battles with the same draws, to compare the library's `fight` with.
//!
//! It keeps one list of units of 28 bytes a side, as a programmer would write it first: each unit has its own strengths,
//! all shields are written anew at each round's start, and destroyed units are removed at each round's end.
//!
//!     rustc -C opt-level=3 -C target-cpu=x86-64-v2 -C codegen-units=1 -o plain plain.rs
//!     ./plain fighters [COUNT] | mixed | turrets | cargos

use std::env::args;
use std::process::exit;

/// How many kinds of units there are.
const KINDS: usize = 22;

/// The most shots that a unit fires in a round.
const MOST_SHOTS: u32 = 4096;

/// Attack, shield and hull of each kind, without technologies.
const STRENGTHS: [[u32; 3]; KINDS] = [
    [5, 10, 400],               // small cargo
    [5, 25, 1200],              // large cargo
    [50, 10, 400],              // light fighter
    [150, 25, 1000],            // heavy fighter
    [400, 50, 2700],            // cruiser
    [1000, 200, 6000],          // battleship
    [700, 400, 7000],           // battlecruiser
    [1000, 500, 7500],          // bomber
    [2000, 500, 11_000],        // destroyer
    [200_000, 50_000, 900_000], // deathstar
    [1, 10, 1600],              // recycler
    [50, 100, 3000],            // colony ship
    [0, 0, 100],                // probe
    [1, 1, 200],                // satellite
    [80, 20, 200],              // launcher
    [100, 25, 200],             // light laser
    [250, 100, 800],            // heavy laser
    [1100, 200, 3500],          // gauss cannon
    [150, 500, 800],            // ion cannon
    [3000, 300, 10_000],        // plasma turret
    [1, 2000, 2000],            // small dome
    [1, 10_000, 10_000],        // large dome
];

const SMALL_CARGO: usize = 0;
const LIGHT_FIGHTER: usize = 2;
const BATTLESHIP: usize = 5;
const PLASMA_TURRET: usize = 19;
const LARGE_DOME: usize = 21;

/// The rapid fire of a kind (row) against each kind.
const RAPID: [[u32; KINDS]; KINDS] = [
    [
        0, 0, 0, 0, 0, 0, 0, 0, 0, 0, 0, 0, 5, 5, 0, 0, 0, 0, 0, 0, 0, 0,
    ],
    [
        0, 0, 0, 0, 0, 0, 0, 0, 0, 0, 0, 0, 5, 5, 0, 0, 0, 0, 0, 0, 0, 0,
    ],
    [
        0, 0, 0, 0, 0, 0, 0, 0, 0, 0, 0, 0, 5, 5, 0, 0, 0, 0, 0, 0, 0, 0,
    ],
    [
        3, 0, 0, 0, 0, 0, 0, 0, 0, 0, 0, 0, 5, 5, 0, 0, 0, 0, 0, 0, 0, 0,
    ],
    [
        0, 0, 6, 0, 0, 0, 0, 0, 0, 0, 0, 0, 5, 5, 10, 0, 0, 0, 0, 0, 0, 0,
    ],
    [
        0, 0, 0, 0, 0, 0, 0, 0, 0, 0, 0, 0, 5, 5, 0, 0, 0, 0, 0, 0, 0, 0,
    ],
    [
        3, 3, 0, 4, 4, 7, 0, 0, 0, 0, 0, 0, 5, 5, 0, 0, 0, 0, 0, 0, 0, 0,
    ],
    [
        0, 0, 0, 0, 0, 0, 0, 0, 0, 0, 0, 0, 5, 5, 20, 20, 10, 0, 10, 0, 0, 0,
    ],
    [
        0, 0, 0, 0, 0, 0, 2, 0, 0, 0, 0, 0, 5, 5, 0, 10, 0, 0, 0, 0, 0, 0,
    ],
    [
        250, 250, 200, 100, 33, 30, 15, 25, 5, 0, 250, 250, 1250, 1250, 200, 200, 100, 50, 100, 0,
        0, 0,
    ],
    [
        0, 0, 0, 0, 0, 0, 0, 0, 0, 0, 0, 0, 5, 5, 0, 0, 0, 0, 0, 0, 0, 0,
    ],
    [
        0, 0, 0, 0, 0, 0, 0, 0, 0, 0, 0, 0, 5, 5, 0, 0, 0, 0, 0, 0, 0, 0,
    ],
    [0; KINDS],
    [0; KINDS],
    [0; KINDS],
    [0; KINDS],
    [0; KINDS],
    [0; KINDS],
    [0; KINDS],
    [0; KINDS],
    [0; KINDS],
    [0; KINDS],
];

/// The generator PCG32: 64 bits of state, a stream, words of 32 bits.
struct Pcg32 {
    state: u64,
    increment: u64,
}

impl Pcg32 {
    fn new(seed: u64, stream: u64) -> Pcg32 {
        let increment = stream << 1 | 1;
        let mut pcg = Pcg32 {
            state: seed.wrapping_add(increment),
            increment,
        };
        pcg.step();
        pcg
    }

    fn step(&mut self) {
        self.state = self
            .state
            .wrapping_mul(6_364_136_223_846_793_005)
            .wrapping_add(self.increment);
    }

    fn next_word(&mut self) -> u32 {
        let state = self.state;
        self.step();
        let mixed = ((state >> 18 ^ state) >> 27) as u32;
        mixed.rotate_right((state >> 59) as u32)
    }

    fn below(&mut self, n: u32) -> u32 {
        (u64::from(self.next_word()) * u64::from(n) >> 32) as u32
    }
}

/// A unit. All strengths are in tenths.
#[derive(Clone, Copy)]
struct Unit {
    part: u32,
    attack: u32,
    full_shield: u32,
    full_hull: u32,
    shield: u32,
    hull: u32,
    kind: u8,
    is_destroyed: bool,
}

const _: () = assert!(size_of::<Unit>() == 28);

/// A part of a side: how many units of each kind.
type Part = [u32; KINDS];

fn muster(parts: &[Part]) -> Vec<Unit> {
    let total = parts.iter().flatten().map(|n| *n as usize).sum();
    let mut units = Vec::with_capacity(total);
    for (place, part) in parts.iter().enumerate() {
        for (kind, count) in part.iter().enumerate() {
            let [attack, shield, hull] = STRENGTHS[kind].map(|strength| strength * 10);
            let unit = Unit {
                part: place as u32,
                attack,
                full_shield: shield,
                full_hull: hull,
                shield,
                hull,
                kind: kind as u8,
                is_destroyed: false,
            };
            units.resize(units.len() + *count as usize, unit);
        }
    }
    units
}

fn volley(shooters: &[Unit], targets: &mut [Unit], pcg: &mut Pcg32) {
    for shooter in shooters {
        if shooter.attack > 0 {
            salvo(shooter, targets, pcg);
        }
    }
}

fn salvo(shooter: &Unit, targets: &mut [Unit], pcg: &mut Pcg32) {
    for count in 1..=MOST_SHOTS {
        let place = pcg.below(targets.len() as u32) as usize;
        let target = &mut targets[place];
        strike(shooter.attack, target, pcg);
        let rapid = RAPID[shooter.kind as usize][target.kind as usize];
        if rapid < 2 || count == MOST_SHOTS || pcg.below(rapid) == 0 {
            return;
        }
    }
}

fn strike(attack: u32, target: &mut Unit, pcg: &mut Pcg32) {
    if target.is_destroyed || 100 * u64::from(attack) < u64::from(target.full_shield) {
        return;
    }
    let on_shield = attack.min(target.shield);
    let on_hull = (attack - on_shield).min(target.hull);
    target.shield -= on_shield;
    target.hull -= on_hull;
    if target.hull == 0 {
        target.is_destroyed = true;
    } else if 10 * u64::from(target.hull) <= 7 * u64::from(target.full_hull) {
        target.is_destroyed = pcg.below(target.full_hull) >= target.hull;
    }
}

fn keep_standing(units: &mut Vec<Unit>) {
    units.retain(|unit| !unit.is_destroyed);
    for unit in units {
        unit.shield = unit.full_shield;
    }
}

fn fight(attackers: &mut Vec<Unit>, planet: &mut Vec<Unit>, pcg: &mut Pcg32) -> u32 {
    for round in 0..6 {
        if attackers.is_empty() || planet.is_empty() {
            return round;
        }
        volley(attackers, planet, pcg);
        volley(planet, attackers, pcg);
        keep_standing(attackers);
        keep_standing(planet);
    }
    6
}

fn part(units: &[(usize, u32)]) -> Part {
    let mut part = [0; KINDS];
    for (kind, count) in units {
        part[*kind] = *count;
    }
    part
}

/// The sides of a battle by its name; `count` is how many fighters each side has.
fn sides(name: &str, count: u32) -> Option<(Vec<Part>, Vec<Part>)> {
    let fleet = part(&[
        (0, 20_000),
        (2, 30_000),
        (3, 20_000),
        (4, 15_000),
        (5, 10_000),
        (7, 3000),
        (8, 2000),
    ]);
    let fortress = part(&[
        (2, 39_998),
        (4, 40_000),
        (14, 300_000),
        (15, 200_000),
        (16, 100_000),
        (17, 50_000),
        (18, 50_000),
        (19, 20_000),
        (20, 1),
        (21, 1),
    ]);
    match name {
        "fighters" => Some((
            vec![part(&[(LIGHT_FIGHTER, count)])],
            vec![part(&[(LIGHT_FIGHTER, count)])],
        )),
        "mixed" => Some((vec![fleet; 8], vec![fortress])),
        "turrets" => Some((
            vec![part(&[(BATTLESHIP, 800_000)])],
            vec![part(&[(PLASMA_TURRET, 800_000)])],
        )),
        "cargos" => Some((
            vec![part(&[(SMALL_CARGO, 100_000)]); 8],
            vec![part(&[(LARGE_DOME, 1)])],
        )),
        _ => None,
    }
}

fn print_left(name: &str, parts: usize, units: &[Unit]) {
    let mut left = vec![[0u32; KINDS]; parts];
    for unit in units {
        left[unit.part as usize][unit.kind as usize] += 1;
    }
    for part in left {
        println!("{name} {part:?}");
    }
}

fn main() {
    let name = args().nth(1).unwrap_or_default();
    let count = args()
        .nth(2)
        .and_then(|word| word.parse().ok())
        .unwrap_or(100_000);
    let Some((attacking, defending)) = sides(&name, count) else {
        eprintln!("usage: plain fighters [COUNT] | mixed | turrets | cargos");
        exit(2);
    };
    let mut attackers = muster(&attacking);
    let mut planet = muster(&defending);
    let rounds = fight(&mut attackers, &mut planet, &mut Pcg32::new(7, 1));
    println!("rounds {rounds}");
    print_left("attackers", attacking.len(), &attackers);
    print_left("planet", defending.len(), &planet);
}
