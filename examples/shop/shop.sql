CREATE TABLE customer (id TEXT PRIMARY KEY, name TEXT NOT NULL) STRICT;
CREATE TABLE product (id TEXT PRIMARY KEY, name TEXT NOT NULL, price INTEGER NOT NULL) STRICT;
CREATE TABLE "order" (id TEXT PRIMARY KEY, customer TEXT NOT NULL REFERENCES customer) STRICT;
CREATE TABLE line (id TEXT PRIMARY KEY, "order" TEXT NOT NULL REFERENCES "order", product TEXT NOT NULL REFERENCES product, count INTEGER NOT NULL) STRICT;

INSERT INTO customer VALUES ('ada', 'Ada Lovelace');
INSERT INTO product VALUES ('tea', 'Tea', 4), ('jar', 'A jar', 12);
INSERT INTO "order" VALUES ('o1', 'ada');
INSERT INTO line VALUES ('l1', 'o1', 'tea', 2), ('l2', 'o1', 'jar', 1);
