-- A loader's block. Where no Ok came, it is sent again.
INSERT INTO requests SETTINGS insert_deduplication_token = 'load 1'
    VALUES ('/', 200, ''), ('/cart', 503, 'GET /cart: no answer from the warehouse; try 1: timed out; try 2: timed out; try 3: timed out; try 4: timed out; try 5: timed out; try 6: timed out; try 7: timed out; try 8: timed out; try 9: timed out; try 10: timed out; try 11: timed out; try 12: timed out; try 13: timed out; try 14: timed out; try 15: timed out; try 16: timed out; try 17: timed out; try 18: timed out; try 19: timed out; try 20: timed out; try 21: timed out; try 22: timed out; try 23: timed out; try 24: timed out; try 25: timed out; try 26: timed out; try 27: timed out; try 28: timed out; try 29: timed out; try 30: timed out; try 31: timed out'), ('/', 200, '');
SELECT * FROM pages;
SELECT status, length(line) FROM errors;
