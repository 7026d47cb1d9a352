"""Questions a line at a time: `lines` has the forms of lines and tells their answers, `answers` asks a session, `complete` completes a word."""
