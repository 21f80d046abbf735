int x = 08; // an octal constant has no digit 8: SOURCE line 1 byte 8: not a token
