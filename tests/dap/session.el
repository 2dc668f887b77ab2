;;; session.el --- a session of Emacs' dap-mode with the adapter of clients/python -*- lexical-binding: t -*-
;;; Commentary:
;; Run by tests/test_dap_emacs.py in batch mode.  The environment variable FEULGAMA names the adapter's program, and EXAMPLES
;; the folder with words.c, json.c and their modules.  Prints a line for each step; a step that fails ends Emacs with status 1.
;;; Code:
(require 'dap-mode)
(require 'dap-ui)

(defvar examples (file-name-as-directory (getenv "EXAMPLES")))
(defvar source (concat examples "words.c"))
(defvar stops 0 "How often the task has stopped.")
(defvar is-over nil "Whether the session has ended.")

(add-hook 'dap-stopped-hook (lambda (_) (setq stops (1+ stops))))
(add-hook 'dap-terminated-hook (lambda (_) (setq is-over t)))
(setq dap-auto-configure-features nil
      dap-auto-show-output nil
      dap-output-buffer-filter '("stdout" "stderr" "console")
      lsp-session-file (expand-file-name "session" "~")
      dap-breakpoints-file (expand-file-name "breakpoints" "~"))

(dap-register-debug-provider
 "feulgama"
 (lambda (conf) (plist-put conf :dap-server-path (list (getenv "FEULGAMA") "dap"))))

(defun wait-until (what test)
  "Read from the adapter until TEST holds; WHAT is said if it does not within 100 seconds."
  (let ((deadline (+ (float-time) 100)))
    (while (not (funcall test))
      (when (> (float-time) deadline)
        (princ (format "FAILED: waited for %s\n" what))
        (kill-emacs 1))
      (accept-process-output nil 0.05))))

(defun ask (command &rest arguments)
  "The body of the reply to COMMAND with ARGUMENTS."
  (let (reply)
    (dap--send-message (dap--make-request command arguments) (lambda (found) (setq reply found)) (dap--cur-session))
    (wait-until command (lambda () reply))
    (gethash "body" reply)))

(defun place ()
  "The name and the line of the frame that Emacs shows."
  (let ((frame (dap--debug-session-active-frame (dap--cur-session))))
    (format "%s, line %s, point at line %s of %s" (gethash "name" frame) (gethash "line" frame)
            (line-number-at-pos) (file-name-nondirectory (or buffer-file-name "")))))

(defun stopped-by (what move)
  "Do MOVE, wait until the task has stopped, and print WHAT and where it is."
  (let ((before stops))
    (setf (dap--debug-session-active-frame (dap--cur-session)) nil)
    (funcall move)
    (wait-until what (lambda () (and (> stops before) (dap--debug-session-active-frame (dap--cur-session)))))
    (princ (format "%s: %s\n" what (place)))))

(defun move-by (command)
  "Send COMMAND, a request of a step that dap-mode has no key for."
  (dap--step command (dap--cur-session)))

(defun launch (name)
  "Debug the module NAME up to its first stop."
  (setq stops 0
        is-over nil)
  (dap-debug (list :type "feulgama" :request "launch" :name name :program (concat examples name ".wasm")))
  (wait-until "a first stop" (lambda () (and (> stops 0) (dap--cur-session)
                                             (dap--debug-session-active-frame (dap--cur-session))))))

(defun value-of (expression)
  "Print what EXPRESSION is."
  (princ (format "%s: %s\n" expression (gethash "result" (ask "evaluate" :expression expression :frameId 0)))))

(defun end-session ()
  "Go on to the end, and print the output."
  (let ((session (dap--cur-session)))
    (dap-continue session 1)
    (wait-until "the end" (lambda () is-over))
    (with-current-buffer (dap--debug-session-output-buffer session)
      (princ (format "output: %s\n" (string-trim (replace-regexp-in-string "\n" " | " (string-trim (buffer-string)))))))))

(find-file source)
(goto-char (point-min))
(forward-line 48)
(dap-breakpoint-add)
(launch "words")
(princ (format "breakpoint: %s\n" (place)))
(seq-doseq (scope (gethash "scopes" (ask "scopes" :frameId 0)))
  (let* ((found (gethash "variables" (ask "variables" :variablesReference (gethash "variablesReference" scope))))
         (shown (and (> (length found) 3) (elt found 3))))
    (princ (format "%s: %d%s\n" (gethash "name" scope) (length found)
                   (if shown (format ", %s = %s" (gethash "name" shown) (gethash "value" shown)) "")))))
(dolist (expression '("length" "*(local 3 + 8)" "found"))
  (value-of expression))
(stopped-by "next" (lambda () (dap-next (dap--cur-session))))
(stopped-by "step back" (lambda () (move-by "stepBack")))
(stopped-by "step in" (lambda () (dap-step-in (dap--cur-session))))
(stopped-by "step out" (lambda () (dap-step-out (dap--cur-session))))
(stopped-by "continue" (lambda () (dap-continue (dap--cur-session) 1)))
(stopped-by "reverse continue" (lambda () (move-by "reverseContinue")))
(cl-letf (((symbol-function 'read-string) (lambda (&rest _) "length == 5")))
  (dap-breakpoint-condition source (dap--get-breakpoint-at-point)))
(stopped-by "continue to the condition" (lambda () (dap-continue (dap--cur-session) 1)))
(value-of "length")
(let* ((found (gethash "variablesReference" (ask "evaluate" :expression "found" :frameId 0)))
       (sum (ask "dataBreakpointInfo" :variablesReference found :name "sum")))
  (princ (format "data breakpoint: %s\n" (gethash "description" sum)))
  (ask "setDataBreakpoints" :breakpoints (vector (list :dataId (gethash "dataId" sum)))))
(stopped-by "continue to a change" (lambda () (dap-continue (dap--cur-session) 1)))
(value-of "found.sum")
(stopped-by "reverse continue to it" (lambda () (move-by "reverseContinue")))
(value-of "found.sum")
(ask "setDataBreakpoints" :breakpoints [])
(dap-breakpoint-delete-all)
(end-session)
(find-file (concat examples "json.c"))
(launch "json")
(princ (format "trap: %s\n" (place)))
(princ (format "exception: %s\n" (gethash "description" (ask "exceptionInfo" :threadId 1))))
(value-of "item")
(end-session)
(kill-emacs 0)
;;; session.el ends here
