;;; session.el --- a session of Emacs's dap-mode over lost-update.c  -*- lexical-binding: t -*-

;; Started by tests/dap: emacs --batch -l session.el ADAPTER EBPF FILE.  It prints a line for each stop.

(package-initialize)
(require 'dap-mode)
(require 'dap-ui)
(require 'dap-ebpf)

(defvar shown nil "How many stops there were.")
(defvar session nil)

(defun wait-for (condition what)
  "Wait until CONDITION returns non-nil, or give up and say that WHAT is missing."
  (let ((ends (+ (float-time) 60)))
    (while (not (funcall condition))
      (when (> (float-time) ends)
        (princ (format "no %s\n" what))
        (kill-emacs 1))
      (accept-process-output nil 0.02))))

(defun ask (command arguments)
  "Return the body of the response to COMMAND with ARGUMENTS."
  (let ((answer nil))
    (dap-ebpf--request session command arguments (lambda (body) (setq answer (or body t))))
    (wait-for (lambda () answer) command)
    answer))

(defun show-stop (label)
  "Print LABEL, and where each CPU is."
  (princ (format "%s:" label))
  (seq-do (lambda (thread)
            (let* ((frames (gethash "stackFrames" (ask "stackTrace" (list :threadId (gethash "id" thread)))))
                   (frame (and (> (length frames) 0) (elt frames 0))))
              (princ (format " %s" (if frame (gethash "line" frame) "-")))))
          (gethash "threads" (ask "threads" nil)))
  (princ "\n"))

(defun value-of (name)
  "Print what NAME is."
  (princ (format "%s = %s\n" name (gethash "result" (ask "evaluate" (list :expression name :context "watch"))))))

(let* ((adapter (pop command-line-args-left))
       (ebpf (pop command-line-args-left))
       (file (pop command-line-args-left))
       (stops 0)
       (step (lambda (label act)
               (let ((before stops))
                 (funcall act)
                 (wait-for (lambda () (> stops before)) "stop")
                 (show-stop label)))))
  (advice-add 'dap--on-event :after
              (lambda (_session event) (when (equal (gethash "event" event) "stopped") (setq stops (1+ stops)))))
  (setq dap-auto-show-output nil dap-auto-configure-features nil)
  (find-file file)
  (dap-breakpoint-delete-all)
  (goto-char (point-min))
  (search-forward "seen = *count")
  (dap-breakpoint-add)
  (dap-start-debugging
   (list :type "ebpf" :request "launch" :name "session" :program file :cpus 2
         :dap-server-path (list adapter "--ebpf" ebpf)))
  (wait-for (lambda () (> stops 0)) "first stop")
  (setq session (dap--cur-session))
  (show-stop "entry")
  (funcall step "one is to load" (lambda () (dap-continue session 1)))
  (funcall step "so is the other" (lambda () (dap-continue session 1)))
  (funcall step "both have loaded" (lambda () (dap-step-in session)))
  (funcall step "and back" (lambda () (dap-ebpf-step-back session)))
  (funcall step "and forth" (lambda () (dap-step-in session)))
  (dap-breakpoint-delete-all)
  (value-of "counter[0]")
  (funcall step "both are to store" (lambda () (dap-continue session 1)))
  (funcall step "both have ended" (lambda () (dap-continue session 1)))
  (value-of "counter[0]")
  (dap-disconnect session)
  (wait-for (lambda () (not (process-live-p (dap--debug-session-proc session)))) "end")
  (princ "ended\n"))
