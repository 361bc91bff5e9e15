BEGIN TRANSACTION;
CREATE TABLE IF NOT EXISTS entry (place TEXT NOT NULL, attempt INTEGER NOT NULL, body TEXT NOT NULL, PRIMARY KEY (place, attempt)) STRICT;
INSERT INTO entry VALUES('quiet',0,'{"attempt":0,"command":"echo quiet >>''@work@/launches''\necho x >file","dir":"@work@/run/quiet","err":"","files":[["file","780a"]],"laid":[],"out":"","place":"quiet","status":0,"v":2}');
INSERT INTO entry VALUES('leave',0,'{"attempt":0,"command":"echo leave >>''@work@/launches''\necho left >file; echo said","dir":"@work@/run/leave","err":"","files":[["file","6c6566740a"]],"laid":[],"out":"736169640a","place":"leave","status":0,"v":2}');
INSERT INTO entry VALUES('show',0,'{"attempt":0,"command":"echo show >>''@work@/launches''\ncat ''@work@/run/leave/file''","dir":"@work@/run/show","err":"","files":[],"laid":[],"out":"6c6566740a","place":"show","status":0,"v":2}');
COMMIT;
