"""A converter and a reader's aid beside `rabit`: one module a command, and what they share.

The tool never decides anything: verdicts are the program's. A script calls the functions named here by module:

    automata.read_ba(bytes) -> Automaton          automata.write_ba(Automaton) -> bytes
    importing.read_any(bytes) -> General          general.to_ba(General) -> Automaton
    exporting.hoa(Automaton) -> str               drawing.dot(Automaton, ..) -> str
    linting.warnings(bytes) -> list of (line, text)
    explaining.explain([first, second, certificate], program) -> dict

Each raises files.Refusal, which has a text and the status that the command would end with, for what it does not take.
"""
