;;; dap-ebpf.el --- debug BPF run files, C and objects with ebpf  -*- lexical-binding: t -*-

;; SPDX-License-Identifier: MIT OR Apache-2.0

;;; Commentary:

;; (require 'dap-ebpf), then M-x dap-debug and "ebpf: this file" in a buffer of a run file or of C.
;; Stepping is dap-mode's own: dap-step-in makes the turns of one line of the CPU that is chosen
;; (dap-switch-thread).  M-x dap-ebpf-step-back, dap-ebpf-reverse-continue, dap-ebpf-outcomes and
;; dap-ebpf-replay-race are beyond what dap-mode has.

;;; Code:

(require 'dap-mode)

(defcustom dap-ebpf-adapter '("ebpf-dap")
  "The debug adapter's command, as a list of words."
  :type '(repeat string)
  :group 'dap-mode)

(defun dap-ebpf--configuration (conf)
  "Complete the launch configuration CONF."
  (dap--put-if-absent conf :dap-server-path dap-ebpf-adapter)
  (dap--put-if-absent conf :name "ebpf")
  (dap--put-if-absent conf :program (buffer-file-name))
  conf)

(dap-register-debug-provider "ebpf" #'dap-ebpf--configuration)
(dap-register-debug-template "ebpf: this file" '(:type "ebpf" :request "launch" :name "ebpf"))

(defun dap-ebpf--request (session command arguments &optional callback)
  "Send COMMAND with ARGUMENTS to SESSION; CALLBACK is given the response's body."
  (dap--send-message
   (dap--make-request command arguments)
   (dap--resp-handler (lambda (response) (when callback (funcall callback (gethash "body" response)))))
   session))

(defun dap-ebpf-step-back (session)
  "Undo the turns of SESSION back to where the last line of the chosen CPU began."
  (interactive (list (dap--cur-active-session-or-die)))
  (dap-ebpf--request session "stepBack" (list :threadId (dap--debug-session-thread-id session))))

(defun dap-ebpf-reverse-continue (session)
  "Undo the turns of SESSION back to the last breakpoint, or to the start."
  (interactive (list (dap--cur-active-session-or-die)))
  (dap-ebpf--request session "reverseContinue" (list :threadId (dap--debug-session-thread-id session))))

(defun dap-ebpf-replay (session what number)
  "Go in SESSION to the end of the outcome, race or hung state (WHAT) with this NUMBER."
  (interactive (list (dap--cur-active-session-or-die)
                     (intern (completing-read "Replay: " '("outcome" "race" "hung") nil t))
                     (read-number "Number: " 1)))
  (dap-ebpf--request session "replay" (list (intern (format ":%s" what)) number)))

(defun dap-ebpf-outcomes (session)
  "List in a buffer the outcomes of every schedule of SESSION's run file."
  (interactive (list (dap--cur-active-session-or-die)))
  (dap-ebpf--request
   session "outcomes" nil
   (lambda (body)
     (with-current-buffer (get-buffer-create "*ebpf outcomes*")
       (erase-buffer)
       (seq-do (lambda (it)
                 (insert (format "%d  by %s\n" (gethash "number" it) (gethash "schedule" it)))
                 (seq-do (lambda (line) (insert "   " line "\n")) (gethash "lines" it)))
               (gethash "outcomes" body))
       (insert (gethash "summary" body) "\n")
       (display-buffer (current-buffer))))))

(provide 'dap-ebpf)
;;; dap-ebpf.el ends here
