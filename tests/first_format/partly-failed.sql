-- The rows after 14 messages of the story `failed-block-jump`: the block is being sent, and two of its numbers, which are
-- partial failures, are pending for one carrier.
BEGIN;
INSERT INTO block VALUES (2025337, 'BBBB', 3);
INSERT INTO version VALUES (1, 2025337001, 'BBBB', 'BBBB', 0, 2025330000, NULL, NULL, NULL, 'partial-failure', 'none', 15, 1, NULL, 0, 1, NULL, NULL, 2025337001, -2);
INSERT INTO version VALUES (2, 2025337002, 'BBBB', 'BBBB', 0, 2025330000, NULL, NULL, NULL, 'partial-failure', 'none', 15, 1, NULL, 0, 1, NULL, NULL, 2025337002, -3);
INSERT INTO version VALUES (3, 2025337, 'BBBB', 'CCCC', 22, 2025550000, NULL, NULL, NULL, 'sending', 'create', 22, 1, NULL, 0, 0, NULL, 37, -4, 2025337);
INSERT INTO broadcast VALUES (1, 1, 0, 2025337001, 'create', 2025330000, NULL, 0, 1);
INSERT INTO broadcast VALUES (2, 1, 0, 2025337002, 'create', 2025330000, NULL, 0, 1);
INSERT INTO broadcast VALUES (3, 1, 22, 2025337, 'create', 2025550000, NULL, 1, 0);
INSERT INTO wait VALUES ('CCCC', 0, 1, 1, 2025337001);
INSERT INTO wait VALUES ('CCCC', 0, 2, 1, 2025337002);
INSERT INTO wait VALUES ('AAAA', 22, 3, 1, 2025337);
INSERT INTO wait VALUES ('BBBB', 22, 3, 1, 2025337);
INSERT INTO wait VALUES ('CCCC', 22, 3, 1, 2025337);
INSERT INTO clock VALUES (0, 22, 4, 60, 60, 30, 120, 1000, 60, 60, 500, 15);
COMMIT;
