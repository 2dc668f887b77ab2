;;; screenshot.el --- a picture of Emacs' dap-mode with the adapter of clients/python -*- lexical-binding: t -*-
;;; Commentary:
;; Run by tests/run dap-screenshot, in an Emacs with a window.  The environment variable FEULGAMA names the adapter's program,
;; EXAMPLES the folder with words.c, json.c and their modules, PICTURE which picture it is, and RAW the file that it is written
;; to.
;;; Code:
(setq inhibit-startup-screen t
      ring-bell-function #'ignore
      vc-handled-backends nil
      native-comp-deferred-compilation nil ; what is compiled would go with the home at the end
      frame-resize-pixelwise t)
(menu-bar-mode -1)
(tool-bar-mode -1)
(scroll-bar-mode -1)
(blink-cursor-mode -1)
(set-frame-font "DejaVu Sans Mono-11" nil t)
(set-frame-position nil 0 0)
(set-frame-size nil (- 1200 (- (frame-outer-width) (frame-text-width)))
                (- 800 (- (frame-outer-height) (frame-text-height))) t)

(defvar treemacs-text-scale nil "Read by lsp-treemacs, and missing in Debian 12's treemacs.")
(require 'dap-mode)
(require 'dap-ui)

(defvar examples (file-name-as-directory (getenv "EXAMPLES")))
(defvar stops 0 "How often the task has stopped.")

(add-hook 'dap-stopped-hook (lambda (_) (setq stops (1+ stops))))
(setq dap-auto-configure-features nil
      dap-auto-show-output nil
      dap-output-buffer-filter '("stdout" "stderr" "console")
      dap-ui-variable-length 60
      dap-ui-buffer-configurations
      `((,dap-ui--locals-buffer (side . right) (slot . 1) (window-width . 0.44))
        (,dap-ui--sessions-buffer (side . right) (slot . 2) (window-width . 0.44) (window-height . 0.25)))
      lsp-session-file (expand-file-name "session" "~")
      dap-breakpoints-file (expand-file-name "breakpoints" "~"))
(dap-mode 1)
(dap-ui-mode 1)
(dap-register-debug-provider
 "feulgama"
 (lambda (conf) (plist-put conf :dap-server-path (list (getenv "FEULGAMA") "dap"))))

(defun wait-until (what test)
  "Read from the adapter until TEST holds; WHAT is said if it does not within 100 seconds."
  (let ((deadline (+ (float-time) 100)))
    (while (not (funcall test))
      (when (> (float-time) deadline)
        (princ (format "FAILED: waited for %s\n" what) #'external-debugging-output)
        (kill-emacs 1))
      (accept-process-output nil 0.05))))

(defun frame-shown ()
  "The frame that Emacs shows, if the task has stopped."
  (and (dap--cur-session) (dap--debug-session-active-frame (dap--cur-session))))

(defun stop-again (move)
  "Do MOVE, and wait until the task has stopped."
  (let ((before stops))
    (setf (dap--debug-session-active-frame (dap--cur-session)) nil)
    (funcall move)
    (wait-until "a stop" (lambda () (and (> stops before) (frame-shown))))))

(defun open-node (label)
  "Open the node of the tree in this window whose line begins with LABEL."
  (goto-char (point-min))
  (re-search-forward (concat "^[^[:alnum:]]*" label))
  (beginning-of-line)
  (treemacs-TAB-action)
  (let ((deadline (+ (float-time) 0.5)))
    (while (< (float-time) deadline) (accept-process-output nil 0.05)))
  (goto-char (point-min))
  (forward-line 1))

(defun ask (command &rest arguments)
  "The body of the reply to COMMAND with ARGUMENTS."
  (let (reply)
    (dap--send-message (dap--make-request command arguments) (lambda (found) (setq reply found)) (dap--cur-session))
    (wait-until command (lambda () reply))
    (gethash "body" reply)))

(defun go-on ()
  "Continue to another stop."
  (stop-again (lambda () (dap-continue (dap--cur-session) 1))))

(defun launch (name line)
  "Debug the module NAME, with its source shown and a breakpoint at LINE, unless that is nil, up to its first stop."
  (find-file (concat examples name ".c"))
  (display-line-numbers-mode 1)
  (when line
    (goto-char (point-min))
    (forward-line (1- line))
    (dap-breakpoint-add))
  (dap-debug (list :type "feulgama" :request "launch" :name name :program (concat examples name ".wasm")))
  (wait-until "a first stop" (lambda () (and (> stops 0) (frame-shown)))))

(defun show (nodes lines)
  "Show NODES of the variables, and the stack; the line of the frame is so many LINES above the end of its window."
  (let ((source (selected-window))
        (name (file-name-base buffer-file-name)))
    (dap-ui-locals)
    (let ((dap-ui-locals-expand-depth nil)) (dap-ui-locals--refresh))
    (mapc #'open-node nodes)
    (dap-ui-sessions)
    (mapc #'open-node (list name "task"))
    (select-window source)
    (recenter (- lines))))

(defun show-breakpoint ()
  "The breakpoint of words.c for the third time."
  (launch "words" 49)
  (dotimes (_ 2) (go-on))
  (show '("Variables" "Task") 12)
  (message nil))

(defun show-watch ()
  "A breakpoint with a condition, and then a data breakpoint, which has stopped."
  (launch "words" 49)
  (cl-letf (((symbol-function 'read-string) (lambda (&rest _) "length == 5")))
    (dap-breakpoint-condition buffer-file-name (dap--get-breakpoint-at-point)))
  (go-on)
  (let* ((found (gethash "variablesReference" (ask "evaluate" :expression "found" :frameId 0)))
         (sum (ask "dataBreakpointInfo" :variablesReference found :name "sum")))
    (ask "setDataBreakpoints" :breakpoints (vector (list :dataId (gethash "dataId" sum))))
    (go-on)
    (show '("Variables" "Task") 22)
    (show-output)
    (message "words.c:49 stops if length == 5; data breakpoint: %s" (gethash "description" sum))))

(defun show-trap ()
  "The trap of json.c."
  (launch "json" nil)
  (show '("Variables" "Task") 22)
  (show-output)
  (message "Exception: %s" (gethash "description" (ask "exceptionInfo" :threadId 1))))

(defun show-output ()
  "Show what the adapter has told."
  (let ((source (selected-window)))
    (split-window-below -9)
    (other-window 1)
    (switch-to-buffer (dap--debug-session-output-buffer (dap--cur-session)))
    (goto-char (point-min))
    (select-window source)))

(defun take ()
  "Make the picture."
  (pcase (getenv "PICTURE")
    ("session" (show-breakpoint))
    ("watch" (show-watch))
    ("trap" (show-trap)))
  (dotimes (_ 10)
    (redisplay t)
    (sit-for 0.1))
  (call-process "import" nil nil nil "-window" "root" (getenv "RAW"))
  (kill-emacs 0))

(defun take-or-end ()
  "Take the picture; end Emacs with what went wrong if that fails."
  (condition-case problem
      (take)
    (error (princ (format "FAILED: %S\n" problem) #'external-debugging-output)
           (kill-emacs 1))))

(run-with-timer 1 nil #'take-or-end)
;;; screenshot.el ends here
