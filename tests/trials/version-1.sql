-- A database that this program made while version 1 was the only one, as the program sqlite3 writes it out (.dump):
-- an instance with two bindings, of which one is being made; one whose creation failed; one that is gone; one that is
-- being made; one with a synchronous binding; and one that is being updated.
PRAGMA foreign_keys=OFF;
BEGIN TRANSACTION;
CREATE TABLE format (version INTEGER NOT NULL) STRICT;
INSERT INTO format VALUES(1);
CREATE TABLE orders (instance_id TEXT NOT NULL, seq INTEGER NOT NULL, kind INTEGER NOT NULL, binding_id TEXT NOT NULL, service_id TEXT NOT NULL, plan_id TEXT NOT NULL, place TEXT NOT NULL, spot TEXT NOT NULL, params TEXT NOT NULL, maint TEXT NOT NULL, state INTEGER NOT NULL, note TEXT NOT NULL, credentials TEXT NOT NULL, PRIMARY KEY (instance_id, seq)) STRICT;
INSERT INTO orders VALUES('bound',1,1,'','svc','p-async','o','s','{}','1.2.0',1,'','{}');
INSERT INTO orders VALUES('bound',2,4,'b','svc','p-async','','{}','{}','',1,'','{"k":"v"}');
INSERT INTO orders VALUES('bound',3,4,'c','svc','p-async','','{}','{}','',0,'','{}');
INSERT INTO orders VALUES('failed',1,1,'','svc','p-async','o','s','{}','1.2.0',2,'no disk','{}');
INSERT INTO orders VALUES('gone',1,1,'','svc','p-sync','o','s','{}','',1,'','{}');
INSERT INTO orders VALUES('gone',2,3,'','svc','p-sync','o','s','{}','',1,'','{}');
INSERT INTO orders VALUES('new',1,1,'','svc','p-async','o','s','{}','1.2.0',0,'','{}');
INSERT INTO orders VALUES('small',1,1,'','svc','p-sync','o','s','{}','',1,'','{}');
INSERT INTO orders VALUES('small',2,4,'b','svc','p-sync','','{}','{}','',1,'','{"uri":"mem:1"}');
INSERT INTO orders VALUES('updated',1,1,'','svc','p-async','o','s','{}','1.2.0',1,'','{}');
INSERT INTO orders VALUES('updated',2,2,'','svc','p-async','o','s','{"n":1}','1.2.0',0,'','{}');
CREATE TABLE instances (instance_id TEXT NOT NULL, phase INTEGER NOT NULL, busy INTEGER NOT NULL, last_seq INTEGER NOT NULL, service_id TEXT NOT NULL, plan_id TEXT NOT NULL, organization TEXT NOT NULL, space TEXT NOT NULL, params TEXT NOT NULL, maint TEXT NOT NULL, PRIMARY KEY (instance_id)) STRICT;
INSERT INTO instances VALUES('bound',2,1,3,'svc','p-async','o','s','{}','1.2.0');
INSERT INTO instances VALUES('failed',3,0,1,'svc','p-async','o','s','{}','1.2.0');
INSERT INTO instances VALUES('gone',0,0,2,'','','','','','');
INSERT INTO instances VALUES('new',1,1,1,'svc','p-async','o','s','{}','1.2.0');
INSERT INTO instances VALUES('small',2,0,2,'svc','p-sync','o','s','{}','');
INSERT INTO instances VALUES('updated',4,1,2,'svc','p-async','o','s','{}','1.2.0');
CREATE TABLE bindings (instance_id TEXT NOT NULL, binding_id TEXT NOT NULL, phase INTEGER NOT NULL, service_id TEXT NOT NULL, plan_id TEXT NOT NULL, app_guid TEXT NOT NULL, bind_resource TEXT NOT NULL, params TEXT NOT NULL, credentials TEXT NOT NULL, PRIMARY KEY (instance_id, binding_id)) STRICT;
INSERT INTO bindings VALUES('bound','b',2,'svc','p-async','','{}','{}','{"k":"v"}');
INSERT INTO bindings VALUES('bound','c',1,'svc','p-async','','{}','{}','{}');
INSERT INTO bindings VALUES('small','b',2,'svc','p-sync','','{}','{}','{"uri":"mem:1"}');
CREATE INDEX busy_instances ON instances (busy, instance_id);
CREATE INDEX subject_orders ON orders (instance_id, binding_id, kind, seq);
COMMIT;
