//! The commands, each with its words, and what `--help` says.

use crate::arguments::{Arguments, Choice};
use crate::failure::{Failure, Outcome};
use crate::{answer, comparing, histories, kafka, lookups, make, runs, show};

pub struct Command {
    pub name: &'static str,
    /// The words behind its name.
    pub words: &'static str,
    about: &'static str,
    /// What else there is to know, and an example.
    more: &'static str,
    pub choices: &'static [Choice],
    pub run: fn(&Arguments) -> Outcome,
}

use Choice::{At, Force, Id, Json, Log, Output, Skip};

/// All commands, in the order of the help.
pub static COMMANDS: [Command; 20] = [
    Command {
        name: "show",
        words: "FILE",
        about: "each record as a line of text",
        more: "A line has the kind and then every field that is there, by the names of docs/FORMAT.md.
Strings stand in quotes with JSON's escapes, ids as 32 hex digits, bytes as hex:.., lists in
brackets, elements in braces. It ends at the first record that does not read.

  $ jeghatuf show plan.records
  ..
  Topic name=\"plan-0042\" topic_id=0000000000000000000000000000002a partitions=2 replication_factor=3
  ..",
        choices: &[Json],
        run: show::show,
    },
    Command {
        name: "make",
        words: "FILE",
        about: "the records of such lines, which show prints",
        more: "Blank lines and lines that begin with # are skipped, and fields may stand in any order. The
first line that is refused ends it, with the line's number, the field and the reason.
With --json the lines are those of show --json.

  $ echo 'DeleteTopic name=\"plan-0042\"' | jeghatuf make - -o end.records",
        choices: &[Json, Output, Force],
        run: make::make,
    },
    Command {
        name: "snapshot",
        words: "FILE",
        about: "the snapshot of the image after a log",
        more: "  $ jeghatuf snapshot plan.records -o plan.snapshot",
        choices: &[Json, At, Output, Force],
        run: runs::snapshot,
    },
    Command {
        name: "restore",
        words: "FILE",
        about: "the records that make a snapshot's image anew",
        more: "The snapshot is restored; its records without the log offset are a log.

  $ jeghatuf restore plan.snapshot -o plan.records",
        choices: &[Json, At, Output, Force],
        run: runs::restore,
    },
    Command {
        name: "topic",
        words: "NAME FILE, or topic --id ID FILE",
        about: "a topic, by its name or its id, and which sheets it has",
        more: "  $ jeghatuf topic plan-0042 plan.records
  Topic name=\"plan-0042\" topic_id=0000000000000000000000000000008e partitions=1 replication_factor=3
  # room list yes, load sheet no",
        choices: &[Json, At, Id],
        run: lookups::topic,
    },
    Command {
        name: "partition",
        words: "NAME NUMBER FILE",
        about: "a partition of a topic; 0 is the room list, 1 the load sheet",
        more: "  $ jeghatuf partition plan-0042 1 plan.records
  no partition 1 (load sheet) of plan-0042",
        choices: &[Json, At],
        run: lookups::partition,
    },
    Command {
        name: "broker",
        words: "NODE FILE",
        about: "a broker",
        more: "  $ jeghatuf broker 2 plan.records",
        choices: &[Json, At],
        run: lookups::broker,
    },
    Command {
        name: "freeze",
        words: "NAME FILE, or freeze --log NAME FILE",
        about: "whether a name is frozen: by whom, since when and why",
        more: "With --log the answer comes from the records alone, without an image: every record has to
read, and none is held to the rules of the image.

  $ jeghatuf freeze --log archive-2023 evening.records
  archive-2023 is frozen, as every name that begins with archive- is
  who: anna
  since: 2023-11-14 22:13:20.000 UTC (1700000000000 ms)
  why: the season is over",
        choices: &[Json, At, Log],
        run: lookups::freeze,
    },
    Command {
        name: "throttle",
        words: "NODE [leader | follower | alter_log_dirs] FILE",
        about: "a broker's throttles, in bytes a second",
        more: "A broker without its own has those of the node default.

  $ jeghatuf throttle 2 leader plan.records
  broker 2, leader: 1048576 bytes a second",
        choices: &[Json, At],
        run: lookups::throttle,
    },
    Command {
        name: "short",
        words: "FILE",
        about: "which partitions are short of in-sync replicas",
        more: "A partition is short when fewer replicas are in sync than it has without those being added.

  $ jeghatuf short plan.records
  partition 1 (load sheet) of plan-0043: in sync [1, 2], replicas [1, 2, 3], being added []
  short of in-sync replicas: 1 of 3 partitions",
        choices: &[Json, At],
        run: lookups::short,
    },
    Command {
        name: "offset",
        words: "FILE",
        about: "how far the image got in the log",
        more: "  $ jeghatuf offset plan.records
  log offset: 14",
        choices: &[Json, At],
        run: lookups::offset,
    },
    Command {
        name: "diff",
        words: "FILE FILE",
        about: "what two snapshots, or logs, differ in, in words",
        more: "Status 1 where they differ.

  $ jeghatuf diff monday.snapshot tuesday.snapshot
  log offset: offset 14, then 20
  partition 1 (load sheet) of plan-0042: leader 1, then 2
  2 differences",
        choices: &[Json, At],
        run: comparing::diff,
    },
    Command {
        name: "downgrade",
        words: "LEVEL FILE",
        about: "what has to be applied before a downgrade, and that nothing is left then",
        more: "The records are applied to a copy; the second listing for the level is then empty.
Status 1 where one of them is refused.

  $ jeghatuf downgrade 16 plan.records",
        choices: &[Json, At, Output, Force],
        run: runs::downgrade,
    },
    Command {
        name: "with-offset",
        words: "OFFSET FILE",
        about: "a snapshot from before the log offset, in the new form",
        more: "  $ jeghatuf with-offset 41 old.snapshot -o new.snapshot",
        choices: &[Json, Output, Force],
        run: runs::with_offset,
    },
    Command {
        name: "without-offset",
        words: "FILE",
        about: "a snapshot in the old form, and its log offset beside it",
        more: "  $ jeghatuf without-offset new.snapshot -o old.snapshot
  log offset: 41",
        choices: &[Json, Output, Force],
        run: runs::without_offset,
    },
    Command {
        name: "view",
        words: "PREFIX.. FILE",
        about: "what a viewer sees: the names that begin with one of up to 8 prefixes",
        more: "An empty prefix shows all.

  $ jeghatuf view plan-0042 plan.records",
        choices: &[Json, At, Output, Force],
        run: runs::view,
    },
    Command {
        name: "compare",
        words: "FILE FILE",
        about: "where two recordings of an evening part",
        more: "The records of both are applied side by side, without being validated: the first ones that
have another effect, with their numbers from 0, their bytes and Apply's verdicts, and what then
differs. Status 1 where they part. For snapshots take diff.

  $ jeghatuf compare one.records other.records
  they agree: 15 records applied, then the end",
        choices: &[Json, At],
        run: comparing::compare,
    },
    Command {
        name: "from-kafka",
        words: "FILE",
        about: "Kafka's own records, back to back, as records of ours",
        more: "Topics, feature levels, producer ids and unregistered brokers; another kind is refused (3).

  $ jeghatuf from-kafka kafka.bin -o ours.records",
        choices: &[Json, Output, Force],
        run: kafka::from_kafka,
    },
    Command {
        name: "to-kafka",
        words: "FILE",
        about: "records in Kafka's own bytes",
        more: "The same four kinds; another one is refused (3), or skipped with --skip.
With --json each record is a line with its bytes in hex.

  $ jeghatuf to-kafka ours.records -o kafka.bin",
        choices: &[Json, Output, Force, Skip],
        run: kafka::to_kafka,
    },
    Command {
        name: "histories",
        words: "FILE [NUMBER]",
        about: "all short histories of 1 to 8 records, or one of them",
        more: "Those of 0 to 4 records, with the positions of their records in the file, from 0.

  $ jeghatuf histories few.records
  31 histories of 2 records
  0: none
  1: 0
  2: 1
  3: 0 0
  ..
  $ jeghatuf histories few.records 3 -o one.records",
        choices: &[Json, Output, Force],
        run: histories::histories,
    },
];

const HEAD: &str = "\
jeghatuf: the records, logs and snapshots of a cluster's image, by a proved library

  jeghatuf COMMAND WORD.. [OPTION..]
";

const TAIL: &str = "\
A FILE is a log, or a snapshot if it begins with a log offset; - is standard input. A log's
records are validated and applied one after the other; refused ones are said and skipped.

  --json        answers, or records, as JSON
  --at BYTES    another capacity of the image than 65536
  -o FILE       the records' bytes into a file; - is standard output
  --force       also over a file that is there
  --help        this, or of a command: jeghatuf show --help
  --version

Status 0; 1 where something was refused or differs; 2 for words that are not understood, or a
file that cannot be read or written.";

/// What `--help` says of the whole.
pub fn help() -> Outcome {
    let line = |command: &Command| format!("  {:<15} {}", command.name, command.about);
    let commands = COMMANDS.iter().map(line).collect::<Vec<_>>().join("\n");
    answer::line(&format!("{HEAD}\n{commands}\n\n{TAIL}"))?;
    Ok(crate::failure::Status::Good)
}

impl Command {
    pub fn named(name: &str) -> Option<&'static Self> {
        COMMANDS.iter().find(|command| command.name == name)
    }

    /// What `--help` says of it.
    pub fn help(&self) -> Outcome {
        let Command {
            name,
            words,
            about,
            more,
            ..
        } = self;
        let choices: Vec<String> = self
            .choices
            .iter()
            .map(|choice| format!("  {}", help_of(*choice)))
            .collect();
        let choices = choices.join("\n");
        answer::line(&format!(
            "jeghatuf {name} {words}: {about}\n\n{more}\n\n{choices}"
        ))?;
        Ok(crate::failure::Status::Good)
    }
}

fn help_of(choice: Choice) -> String {
    let says = match choice {
        Json => "--json        as JSON",
        At => "--at BYTES    another capacity of the image than 65536",
        Output => "-o FILE       the records' bytes into a file; - is standard output",
        Force => "--force       also over a file that is there",
        Log => "--log         from the records alone",
        Id => "--id          by the id, 32 hex digits",
        Skip => "--skip        leave out records of other kinds",
    };
    says.into()
}

/// What there is where a command is not understood.
pub fn unknown(word: &str) -> Failure {
    let names: Vec<&str> = COMMANDS.iter().map(|command| command.name).collect();
    let names = names.join(", ");
    Failure::Unusable(format!(
        "{word} is no command; there are {names}; see jeghatuf --help"
    ))
}
