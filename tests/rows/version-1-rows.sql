INSERT INTO meta (id, version) VALUES (1, 1);
INSERT INTO account (name, opened, next_job) VALUES ('alice', 1000, 3);
INSERT INTO grants (account, month, pages) VALUES ('alice', 24320, 100);
INSERT INTO job (account, job, name, password, state, open, stopping, copies, impressions, reserved, charged, documents, rate, device, created, started, ended) VALUES ('alice', 2, x'6c6574746572', x'', 3, 0, 0, 2, 5, 10, 0, 1, 1, 'd2', 1500, -1, -1);
INSERT INTO document (account, job, number, format, bytes) VALUES ('alice', 2, 1, 'text/plain', x'61');
INSERT INTO device (name, accepting) VALUES ('d1', 0), ('d2', 1);
