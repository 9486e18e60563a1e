//! The two programs of the port, run unproved (`rt try`) in a copy of the crates, and where they answer otherwise than the oracle.
use crate::{read, run, stop};
use std::path::{Path, PathBuf};
use std::process::{Command, Output};
use std::{env, fs, process};

#[derive(Clone, Copy, PartialEq)]
pub enum Program {
    /// Answers the stored sample.
    Replay,
    /// Answers sessions of the pass program.
    Panelrun,
}

pub struct Port {
    pub folder: PathBuf,
    /// Folders of sessions, each with its answers beside it as NAME.stdout. The next is asked where one shows nothing.
    pub sessions: Vec<PathBuf>,
}

impl Port {
    /// A copy of the crates, outside the repository. Its `replay` is to write what the oracle answers to the sample.
    pub fn copy(out: &Path, sample: &Path, sessions: &[&str]) -> Result<Self, String> {
        let folder = env::temp_dir().join(format!("port-{}", process::id()));
        fs::create_dir_all(&folder).map_err(|e| e.to_string())?;
        // What checks have kept is large, and no part of it.
        let copied = "tar --exclude=out -cf - crates crates.txt | tar xf - -C \"$0\"";
        run(Command::new("sh").args(["-c", copied]).arg(&folder))?;
        let replay = folder.join("crates/replay");
        fs::copy(sample, replay.join("stdin")).map_err(|e| e.to_string())?;
        let input = fs::File::open(sample).map_err(|e| e.to_string())?;
        let answers = Command::new(out.join("oracle")).stdin(input).output();
        let answers = answers.map_err(|e| e.to_string())?.stdout;
        fs::write(replay.join("stdout"), answers).map_err(|e| e.to_string())?;
        let sessions = sessions.iter().map(|it| Path::new(it).canonicalize());
        let sessions = sessions.collect::<Result<_, _>>();
        let sessions = sessions.map_err(|e| e.to_string())?;
        Ok(Self { folder, sessions })
    }

    /// The program that shows what becomes of an edit of this crate; none where both do without it.
    pub fn program(&self, krate: &str) -> Option<Program> {
        let crates = read(&self.folder.join("crates.txt"));
        let stands_on = |program: &str| {
            let below = crates.lines().find_map(|line| line.strip_prefix(program));
            let mut below = below.unwrap_or_default().split(' ');
            krate == program || below.any(|name| name == krate)
        };
        if stands_on("replay:") {
            Some(Program::Replay)
        } else {
            stands_on("panelrun:").then_some(Program::Panelrun)
        }
    }

    /// Where the program answers otherwise than the oracle.
    pub fn first_difference(&self, program: Program) -> Option<String> {
        match program {
            Program::Replay => self.line().map(|line| format!("line {line}")),
            Program::Panelrun => self.sessions.iter().find_map(|folder| self.session(folder)),
        }
    }

    /// The line of the sample that is answered otherwise. (`rt try` runs it compiled, and interpreted as far as that goes; it prints the answers once.)
    fn line(&self) -> Option<usize> {
        let replay = self.folder.join("crates/replay");
        let sample = fs::File::open(replay.join("stdin")).unwrap_or_else(|e| stop(&e.to_string()));
        let tried = tried(Command::new("rt").arg("try").stdin(sample), &replay);
        let said = String::from_utf8_lossy(&tried.stderr);
        if !said.contains("checked: ") {
            stop(&format!("rt try: {said}"));
        }
        let wanted = read(&replay.join("stdout"));
        let found = String::from_utf8_lossy(&tried.stdout);
        if found == wanted {
            return None;
        }
        let same = wanted
            .lines()
            .zip(found.lines())
            .take_while(|(wanted, found)| wanted == found);
        Some(1 + same.count())
    }

    /// The first session of a folder that is answered otherwise, or at which the program stops. It is run compiled alone: to interpret it too takes minutes.
    fn session(&self, folder: &Path) -> Option<String> {
        let program = self.folder.join("crates/panelrun");
        let tried = tried(
            Command::new("rt")
                .args(["try", "--steps", "1", "--cases"])
                .arg(folder),
            &program,
        );
        let said = String::from_utf8_lossy(&tried.stderr);
        if !said.lines().any(|line| line.starts_with("cases=")) {
            stop(&format!("rt try: {said}"));
        }
        let cases = said.lines().filter_map(|line| line.strip_prefix("case="));
        let mut others = cases.filter(|case| !case.contains(" output=expected "));
        let name = others.next()?.split(' ').next()?;
        let kind = folder.file_name()?.to_string_lossy();
        Some(format!("{kind} session {name}"))
    }
}

fn tried(command: &mut Command, program: &Path) -> Output {
    let done = command.current_dir(program).output();
    done.unwrap_or_else(|e| stop(&e.to_string()))
}
