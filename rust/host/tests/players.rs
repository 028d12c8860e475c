//! The match of tests/rules/players.dat, compiled by fteqcc: 32 players are entities, and StartFrame walks over them. What each call
//! answers and leaves is in players.txt, from the model; tests/players_match.py plays the match without a machine, too, and describes
//! the lines.

use std::fs;
use std::path::{Path, PathBuf};

use host::{
    Caller, Cause, FieldError, Handover, Machine, Program, Refusal, Settings, CELLS, SAVED_STORE,
};

const PLAYERS: i64 = 32;
const FRAMES: i64 = 16;
const FRAME_TIME: f32 = 0.5;

fn rules() -> PathBuf {
    Path::new(env!("CARGO_MANIFEST_DIR")).join("../../tests/rules")
}

/// The rules on a machine, and what bprint was given.
struct Match {
    machine: Machine,
    printed: u32,
}

impl Match {
    /// Loaded with an entity for each player, and the world's.
    fn new() -> Match {
        let program = fs::read(rules().join("players.dat")).unwrap();
        let entities = PLAYERS + 1;
        let entity_cells = entities as usize * Program::new(&program).entity_cells();
        let mut machine = Machine::with_entities(
            program,
            vec![0; CELLS],
            vec![0; SAVED_STORE],
            vec![0; entity_cells],
        );
        machine
            .load_with(Settings {
                entities,
                ..Settings::default()
            })
            .unwrap();
        Match {
            machine,
            printed: 0,
        }
    }

    fn cell(&self, name: &str) -> i64 {
        let definition = self.machine.find_definition_by_name(name);
        definition.unwrap().cell.into()
    }

    fn set(&mut self, name: &str, value: u32) {
        self.machine.write(self.cell(name), value).unwrap();
    }

    fn set_float(&mut self, name: &str, value: f32) {
        self.set(name, value.to_bits());
    }

    fn float(&self, entity: i64, name: &str) -> f32 {
        let field = self.machine.field(entity, name).unwrap();
        field.float().unwrap()
    }

    /// Calls a function of the rules; the victim's name is printed. The completed statements.
    fn call(&mut self, name: &str) -> u32 {
        let function = self.machine.find_function_by_name(name).unwrap();
        let printed = &mut self.printed;
        let called = self.machine.call(function, 99_999, |handover, machine| {
            assert_eq!(handover, Handover::Builtin(23));
            let text = machine.text(machine.read(4)?.into()).unwrap();
            assert!(text == b"Home" || text == b"Guests", "{text:?}");
            *printed += 1;
            Ok::<(), Refusal>(())
        });
        called.unwrap()
    }

    /// FNV-1a of the entity cells.
    fn digest(&self) -> String {
        let bytes = self.machine.entities().iter().flat_map(|c| c.to_le_bytes());
        let digest = bytes.fold(0xcbf2_9ce4_8422_2325_u64, |digest, byte| {
            (digest ^ u64::from(byte)).wrapping_mul(0x100_0000_01b3)
        });
        format!("{digest:016x}")
    }

    /// A player joins: the host gives the name, the rules the rest.
    fn connect(&mut self, player: i64) -> String {
        self.set("self", player as u32);
        let name = if player % 2 == 1 { "Home" } else { "Guests" };
        let name = self.machine.find_text(name).unwrap();
        let mut netname = self.machine.field_mut(player, "netname").unwrap();
        netname.set_text(name).unwrap();
        let count = self.call("ClientConnect");
        format!("connect {player} {count} {}", self.digest())
    }

    fn frame(&mut self, number: i64) -> String {
        self.set_float("time", number as f32 * FRAME_TIME);
        let count = self.call("StartFrame");
        let points = ["red", "blue"].map(|side| self.machine.read_float(self.cell(side)).unwrap());
        format!(
            "frame {number} {count} {} {} {} {}",
            points[0],
            points[1],
            self.printed,
            self.digest()
        )
    }

    /// All players join, and all frames are played.
    fn play(&mut self) -> Vec<String> {
        let mut lines: Vec<String> = (1..=PLAYERS).map(|player| self.connect(player)).collect();
        self.set("self", 0);
        self.set_float("arena", 240.0);
        self.set_float("frag_limit", 20.0);
        self.set_float("frametime", FRAME_TIME);
        lines.extend((1..=FRAMES).map(|number| self.frame(number)));
        lines
    }

    fn end(&mut self) -> Vec<String> {
        let count = self.call("EndMatch");
        let [leader, red, blue] = self.machine.read_vector(1).unwrap();
        let mut lines = vec![format!("end {count} {leader} {red} {blue}")];
        let count = self.call("best_rank");
        lines.push(format!(
            "best {count} {}",
            self.machine.read_float(1).unwrap()
        ));
        let count = self.call("leader_name");
        let name = self.machine.read(1).unwrap().into();
        let name = String::from_utf8_lossy(self.machine.text(name).unwrap());
        let leader = self.machine.read(self.cell("leader")).unwrap();
        lines.push(format!("leader {count} {leader} {name}"));
        lines
    }

    fn player(&self, player: i64) -> String {
        let counts =
            ["frags", "deaths", "hits", "best_streak"].map(|name| self.float(player, name));
        let [frags, deaths, hits, streak] = counts;
        let others = ["enemy", "last_attacker"].map(|name| {
            let field = self.machine.field(player, name).unwrap();
            field.entity().unwrap()
        });
        let [x, y, z] = self
            .machine
            .field(player, "origin")
            .unwrap()
            .vector()
            .unwrap();
        let (health, armour) = (
            self.float(player, "health"),
            self.float(player, "armorvalue"),
        );
        format!(
            "player {player} {frags} {deaths} {hits} {streak} {} {} {health:?} {armour:?} {x:?} {y:?} {z:?}",
            others[0], others[1]
        )
    }

    /// A call that is refused 30 after it has written a field, which stays written.
    fn broken(&mut self) -> String {
        self.set("self", 1);
        let mut bounces = self.machine.field_mut(1, "bounces").unwrap();
        bounces.set_float(5.0).unwrap();
        self.machine.write(4, PLAYERS as u32 + 1).unwrap();
        let function = self.machine.find_function_by_name("broken").unwrap();
        let no_host = |handover: Handover, _: &mut Caller<'_>| Err::<(), Handover>(handover);
        let error = self.machine.call(function, 99_999, no_host).unwrap_err();
        let Cause::Refused(refusal) = error.cause else {
            panic!("{error:?}");
        };
        assert_eq!(self.float(1, "bounces"), 0.0);
        assert_eq!(self.machine.depth(), 0);
        format!("broken {} {}", error.count, refusal.number())
    }
}

#[test]
fn a_match_of_32_players() {
    let mut played = Match::new();
    let mut lines = played.play();
    lines.extend(played.end());
    lines.extend((1..=PLAYERS).map(|player| played.player(player)));
    lines.push(played.broken());
    let expected = fs::read_to_string(rules().join("players.txt")).unwrap();
    for (line, expected) in lines.iter().zip(expected.lines()) {
        assert_eq!(line, expected);
    }
    assert_eq!(lines.len(), expected.lines().count());
    assert_eq!(lines.len() as i64, 2 * PLAYERS + FRAMES + 4);
}

/// What a player thinks is a field: the host takes one off the field by it, and brings it back.
#[test]
fn the_host_sets_what_a_player_thinks() {
    let mut played = Match::new();
    for player in 1..=PLAYERS {
        played.connect(player);
    }
    let machine = &mut played.machine;
    let alive = machine.find_function_by_name("alive").unwrap();
    let dead = machine.find_function_by_name("dead").unwrap();
    assert_eq!(machine.field(7, "think").unwrap().function(), Ok(alive));
    let mut think = machine.field_mut(7, "think").unwrap();
    think.set_function(dead).unwrap();
    // off the field nobody shoots at it
    for (name, value) in [("respawn_at", 2.0), ("health", 1.0), ("deadflag", 1.0)] {
        let mut field = machine.field_mut(7, name).unwrap();
        field.set_float(value).unwrap();
    }
    for (time, health) in [(1.0, 1.0), (2.0, 95.0)] {
        played.set_float("time", time);
        played.call("StartFrame");
        assert_eq!(played.float(7, "health"), health);
    }
}

/// The host puts an entity into the chain that isn't there: the walk is refused, and the match goes on when it is put right.
#[test]
fn a_chain_that_leaves_the_entities() {
    let mut played = Match::new();
    for player in 1..=PLAYERS {
        played.connect(player);
    }
    let frame = played.machine.find_function_by_name("StartFrame").unwrap();
    let mut chain = played.machine.field_mut(20, "chain").unwrap();
    chain.set_entity(PLAYERS + 1).unwrap();
    let called = played
        .machine
        .call(frame, 99_999, |_, _| Ok::<(), FieldError>(()));
    let error = called.unwrap_err();
    assert_eq!(error.cause, Cause::Refused(Refusal::new(30)));
    assert_eq!(played.machine.depth(), 0);
    // those before it in the chain had their turn
    assert_eq!(played.float(20, "shots"), 5.0);
    assert_eq!(played.float(19, "shots"), 3.0);
    let mut chain = played.machine.field_mut(20, "chain").unwrap();
    chain.set_entity(19).unwrap();
    played.call("StartFrame");
    assert_eq!(played.float(19, "shots"), 4.0);
}
