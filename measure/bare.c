/* A server that does only what has to be done: what is measured beside the broker.
 *
 * usage: bare PORT REQUESTS-PER-CONNECTION BODY-BYTES [DATABASE]
 *
 * It takes one connection after the other. Each read counts as one request, and is answered by a
 * body of so many bytes; after the last request the connection is closed. With a database, a new
 * file, the bytes of each request are first inserted into a table and synced to the disk.
 */
#include <arpa/inet.h>
#include <netinet/tcp.h>
#include <sqlite3.h>
#include <stdio.h>
#include <stdlib.h>
#include <string.h>
#include <sys/socket.h>
#include <unistd.h>

#define MAKE "PRAGMA journal_mode = WAL; PRAGMA synchronous = FULL;" \
             "CREATE TABLE requests (id INTEGER PRIMARY KEY, bytes TEXT NOT NULL) STRICT"
#define INSERT "INSERT INTO requests (bytes) VALUES (?1)"

static sqlite3_stmt *insert;

static int made(const char *path)
{
    sqlite3 *database;
    return sqlite3_open(path, &database) == SQLITE_OK && sqlite3_exec(database, MAKE, NULL, NULL, NULL) == SQLITE_OK &&
           sqlite3_prepare_v2(database, INSERT, -1, &insert, NULL) == SQLITE_OK;
}

static int kept(const char *bytes, int length)
{
    if (!insert)
        return 1;
    sqlite3_bind_text(insert, 1, bytes, length, SQLITE_STATIC);
    return sqlite3_step(insert) == SQLITE_DONE && sqlite3_reset(insert) == SQLITE_OK;
}

static int listening(int port)
{
    struct sockaddr_in address = {.sin_family = AF_INET, .sin_port = htons(port)};
    int listener = socket(AF_INET, SOCK_STREAM, 0), on = 1;
    address.sin_addr.s_addr = htonl(INADDR_LOOPBACK);
    setsockopt(listener, SOL_SOCKET, SO_REUSEADDR, &on, sizeof on);
    if (bind(listener, (struct sockaddr *)&address, sizeof address) || listen(listener, 128))
        exit(1);
    return listener;
}

int main(int count, char **words)
{
    static char request[65536], reply[65536];
    if (count < 4 || (count == 5 && !made(words[4])))
        return 2;
    int listener = listening(atoi(words[1])), requests = atoi(words[2]), on = 1;
    int length = snprintf(reply, sizeof reply, "HTTP/1.1 200 OK\r\nContent-Length: %s\r\n\r\n%*s", words[3],
                          atoi(words[3]), "");
    for (;;) {
        int stream = accept(listener, NULL, NULL);
        setsockopt(stream, IPPROTO_TCP, TCP_NODELAY, &on, sizeof on);
        for (int i = 0; i < requests; i++) {
            ssize_t got = read(stream, request, sizeof request);
            if (got <= 0 || !kept(request, got) || write(stream, reply, length) != length)
                break;
        }
        close(stream);
    }
}
