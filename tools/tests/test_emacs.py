"""The package for Emacs: it compiles, its sessions, its colours and its keys."""
import json
import os
import pathlib
import shutil
import subprocess
import tempfile
import unittest

from common import PROGRAM, TOP, needs
from keys import keys_of_keyboard_page

PACKAGE = TOP / "contrib" / "emacs" / "aplcalc.el"
HELPERS = """
(require 'json)
(setq aplcalc-program (getenv "APLCALC") text-quoting-style 'grave inhibit-field-text-motion t)
(defun session () (get-buffer "*aplcalc*"))
(defun answered ()
  (with-current-buffer (session)
    (while (and (or aplcalc--busy aplcalc--lines) (process-live-p (get-buffer-process (session))))
      (accept-process-output nil 0.01))))
(defun ended ()
  (while (get-buffer-process (session)) (accept-process-output nil 0.01)))
(defun type (line) (goto-char (point-max)) (insert line) (call-interactively (key-binding (kbd "RET"))))
(defun answer (value) (princ (json-encode value)))
(defun text () (with-current-buffer (session) (buffer-substring-no-properties (point-min) (point-max))))
(defun face-of (line text)
  (goto-char (point-min)) (forward-line (1- line)) (search-forward text (line-end-position))
  (let ((face (get-text-property (match-beginning 0) 'face))) (if (consp face) (car face) face)))
"""
SESSION = """#!/usr/bin/env aplrun
TOTAL←+/¯12 5×A1[2;]
'IT''S ⍝ A'=∆X ⍝ it's a comment
)ORIGIN 0
'OPEN
3∈⍳5
VALUE ERROR
         ∧
X∘.=Y∧" ⍝ é
"""
# Line, the text whose first character is looked at, and its face.
COLOURS = [
    (1, "#!/usr", "font-lock-comment-face"),
    (2, "TOTAL", "font-lock-variable-name-face"),
    (2, "←", "font-lock-keyword-face"),
    (2, "+", "font-lock-function-name-face"),
    (2, "/", "font-lock-type-face"),
    (2, "¯12", "font-lock-constant-face"),
    (2, "5×", "font-lock-constant-face"),
    (2, "×", "font-lock-function-name-face"),
    (2, "1[", "font-lock-variable-name-face"),
    (2, "[", None),
    (3, "'IT", "font-lock-string-face"),
    (3, "S ⍝", "font-lock-string-face"),
    (3, "⍝ A", "font-lock-string-face"),
    (3, "=", "font-lock-function-name-face"),
    (3, "∆X", "font-lock-variable-name-face"),
    (3, "⍝ it", "font-lock-comment-face"),
    (3, "'s a", "font-lock-comment-face"),
    (4, ")", "font-lock-preprocessor-face"),
    (5, "'", "font-lock-warning-face"),
    (6, "∈", "font-lock-warning-face"),
    (7, "VALUE", "error"),
    (8, "∧", "error"),
    (9, "∘", "font-lock-type-face"),
    (9, ".", "font-lock-type-face"),
    (9, "∧", "font-lock-function-name-face"),
    (9, '"', "font-lock-warning-face"),
    (9, "é", "font-lock-warning-face"),
]


def quoted(text):
    """A text as Lisp reads it."""
    return '"%s"' % text.replace("\\", "\\\\").replace('"', '\\"')


@needs("emacs")
class Emacs(unittest.TestCase):
    def setUp(self):
        folder = tempfile.TemporaryDirectory()
        self.addCleanup(folder.cleanup)
        self.folder = pathlib.Path(folder.name)

    def run_emacs(self, *words):
        environment = {**os.environ, "HOME": str(self.folder), "APLCALC": PROGRAM, "LC_ALL": "C.UTF-8"}
        command = ["emacs", "-Q", "--batch", *words]
        return subprocess.run(command, capture_output=True, timeout=12, env=environment, stdin=subprocess.DEVNULL)

    def ask(self, script):
        """What a script, after the package was loaded, answers."""
        file = self.folder / "script.el"
        file.write_text(HELPERS + script, encoding="utf-8")
        run = self.run_emacs("-l", str(PACKAGE), "-l", str(file))
        self.assertEqual((run.returncode, run.stderr.decode().strip()), (0, ""))
        return json.loads(run.stdout.decode())

    def test_compiles_without_a_warning(self):
        copy = shutil.copy(PACKAGE, self.folder)
        run = self.run_emacs("--eval", "(setq byte-compile-error-on-warn t)", "-f", "batch-byte-compile", copy)
        self.assertEqual((run.returncode, run.stderr.decode()), (0, ""))

    def test_a_session_shows_typed_lines_behind_six_blanks(self):
        text = self.ask("(call-interactively 'aplcalc) (answered) (type \"2+3 4 5\") (answered) (answer (text))")
        self.assertEqual(text, "      2+3 4 5\n5 6 7\n      ")

    def test_a_region_is_answered_line_by_line(self):
        lines = "A←2 2⍴⍳4\nA\n+/A\n1 2+1 2 3\n'IT''S'"
        script = "(with-temp-buffer (insert %s) (aplcalc-mode) (aplcalc-send-region (point-min) (point-max))) (answered) (answer (text))"
        self.assertEqual(
            self.ask(script % quoted(lines)).split("\n"),
            ["      A←2 2⍴⍳4", "      A", "1 2", "3 4", "      +/A", "3 7"]
            + ["      1 2+1 2 3", "LENGTH ERROR", "      1 2+1 2 3", "         ∧", "      'IT''S'", "IT'S", "      "],
        )

    def test_a_line_and_a_whole_file_are_sent_by_keys(self):
        script = """
            (find-file (expand-file-name "a.apl" (getenv "HOME")))
            (insert "#!/usr/bin/env aplrun\\n2+3\\n2×3\\n")
            (call-interactively (key-binding (kbd "C-c C-b")))
            (goto-char (point-min)) (forward-line)
            (call-interactively (key-binding (kbd "C-c C-l")))
            (answered) (answer (list (text) (line-number-at-pos)))"""
        self.assertEqual(self.ask(script), ["      2+3\n5\n      2×3\n6\n      2+3\n5\n      ", 3])

    def test_what_is_typed_during_an_answer_stays(self):
        script = """
            (aplcalc) (answered) (type "+/⍳30000000") (goto-char (point-max)) (insert "2+") (answered)
            (type "3") (answered) (answer (text))"""
        self.assertEqual(self.ask(script), "      +/⍳30000000\n450000015000000\n      2+3\n5\n      ")

    def test_a_session_ends_and_another_begins(self):
        script = """
            (aplcalc) (answered) (type "A←3") (answered) (type ")OFF") (ended)
            (let ((refused (condition-case reason (type "A") (user-error (cadr reason)))))
              (aplcalc) (answered) (goto-char (point-max))
              (let ((start (line-beginning-position)))
                (type "A") (answered)
                (answer (list refused (buffer-substring-no-properties start (point-max))))))"""
        refused, text = self.ask(script)
        self.assertIn("M-x aplcalc starts it again", refused)
        self.assertEqual(text, "      A\nVALUE ERROR\n      A\n      ∧\n      ")

    def test_a_missing_program_is_named(self):
        script = """(setq aplcalc-program "no-such-program")
            (answer (condition-case reason (aplcalc) (user-error (cadr reason))))"""
        self.assertEqual(self.ask(script), "There is no program no-such-program: set `aplcalc-program'")

    def test_colours_of_a_file(self):
        (self.folder / "a.apl").write_text(SESSION, encoding="utf-8")
        places = " ".join("(%d . %s)" % (line, quoted(text)) for line, text, _ in COLOURS)
        script = """
            (find-file (expand-file-name "a.apl" (getenv "HOME")))
            (font-lock-ensure)
            (answer (list major-mode current-input-method (mapcar (lambda (place) (face-of (car place) (cdr place))) '(%s))))"""
        mode, method, faces = self.ask(script % places)
        self.assertEqual((mode, method), ("aplcalc-mode", "aplcalc"))
        self.assertEqual(list(zip(COLOURS, faces)), [(row, row[2]) for row in COLOURS])

    def test_colours_of_a_session_leave_answers_out(self):
        script = """
            (aplcalc) (answered) (type "'IT''S',' 5'") (answered) (type "1+") (answered)
            (setq-local char-property-alias-alist '((face font-lock-face)))
            (font-lock-ensure)
            (answer (list current-input-method (face-of 1 "'IT") (face-of 2 "IT") (face-of 2 "5") (face-of 3 "+")
                          (face-of 4 "SYNTAX") (face-of 6 "∧")))"""
        wanted = ["aplcalc", "font-lock-string-face", None, None, "font-lock-function-name-face", "error", "error"]
        self.assertEqual(self.ask(script), wanted)

    def test_each_key_types_its_symbol(self):
        keys = {**keys_of_keyboard_page(), "`": "`"}
        script = """
            (activate-input-method "aplcalc")
            (answer (mapcar (lambda (key) (string (quail-get-translation (car (quail-lookup-key key 2)) key 2))) '(%s)))"""
        self.assertEqual(self.ask(script % " ".join(quoted("`" + key) for key in keys)), list(keys.values()))


if __name__ == "__main__":
    unittest.main()
