// POCO 1.11 (libpoco-dev): what Poco::Redis::Client does to read a reply.
// needs: c++ /usr/include/Poco/Redis/Redis.h
// make: c++ -O1 -o {OUT} {FILE} -lPocoRedis -lPocoNet -lPocoFoundation
// run: {OUT}
#include <Poco/Net/ServerSocket.h>
#include <Poco/Net/StreamSocket.h>
#include <Poco/Redis/Array.h>
#include <Poco/Redis/Error.h>
#include <Poco/Redis/Exception.h>
#include <Poco/Redis/RedisStream.h>
#include <Poco/Redis/Type.h>

#include <cstdio>
#include <iostream>
#include <sstream>

using namespace Poco::Redis;
using Poco::Net::StreamSocket;

static std::string quoted(const std::string &text) {
    std::string made = "\"";
    for (unsigned char byte : text) {
        char room[8];
        snprintf(room, sizeof room, byte < 32 || byte > 126 || byte == '"' || byte == '\\' ? "\\u%04x" : "%c", byte);
        made += room;
    }
    return made + "\"";
}

static std::string told(const RedisType &value) {
    if (value.isInteger())
        return "[\"integer\", \"" + std::to_string(dynamic_cast<const Type<Poco::Int64> &>(value).value()) + "\"]";
    if (value.isError())
        return "[\"error\", " + quoted(dynamic_cast<const Type<Error> &>(value).value().getMessage()) + "]";
    if (value.isSimpleString())
        return "[\"simple\", " + quoted(dynamic_cast<const Type<std::string> &>(value).value()) + "]";
    if (value.isBulkString()) {
        const BulkString &text = dynamic_cast<const Type<BulkString> &>(value).value();
        return text.isNull() ? "[\"nullbulk\"]" : "[\"bulk\", " + quoted(text.value()) + "]";
    }
    const Array &array = dynamic_cast<const Type<Array> &>(value).value();
    if (array.isNull())
        return "[\"nullarray\"]";
    std::string items;
    for (auto it = array.begin(); it != array.end(); ++it)
        items += (items.empty() ? "" : ", ") + told(**it);
    return "[\"array\", [" + items + "]]";
}

int main(int count, char **) {
    if (count > 1) {
        puts("{\"parser\": \"POCO 1.11.0\", \"profiles\": [\"resp2\"], \"feeds\": [\"whole\", \"joined\", \"end\"]}");
        return 0;
    }
    Poco::Net::ServerSocket listening(Poco::Net::SocketAddress("127.0.0.1", 0));
    for (std::string line; std::getline(std::cin, line);) {
        std::istringstream words(line);
        std::string id, version, pieces, piece, values, end = "more";
        words >> id >> version >> pieces;
        StreamSocket client(listening.address()), server = listening.acceptConnection();
        client.setReceiveTimeout(Poco::Timespan(0, 30000));
        std::istringstream list(pieces);
        while (std::getline(list, piece, ',')) {
            std::string bytes;
            for (size_t at = 0; piece != "end" && at < piece.size(); at += 2)
                bytes += (char)std::stoi(piece.substr(at, 2), nullptr, 16);
            for (size_t at = 0; at < bytes.size();)
                at += server.sendBytes(bytes.data() + at, (int)(bytes.size() - at));
            if (piece == "end")
                server.shutdownSend();
        }
        RedisInputStream in(client);
        try {
            for (int c; (c = in.get()) != -1;) {
                RedisType::Ptr reply = RedisType::createRedisType((char)c);
                if (reply.isNull())
                    throw RedisException("Invalid Redis type returned");
                reply->read(in);
                // What is read after the last byte is no reply: the stream is at its end, or waited in vain.
                if (!in.good())
                    break;
                values += (values.empty() ? "" : ", ") + told(*reply);
            }
        } catch (std::exception &) {
            // A read that waits in vain makes the stream bad, and then the parser fails.
            end = in.good() ? "error" : "more";
        }
        printf("{\"id\": \"%s\", \"values\": [%s], \"end\": \"%s\"}\n", id.c_str(), values.c_str(), end.c_str());
        fflush(stdout);
    }
}
