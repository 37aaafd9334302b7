// What people would write instead of `wh report`, `wh query` and `wh dump`: a plain program over C SQLite that prints the same texts of a warehouse's file. It
// trusts the file, and knows the attributes beforehand. `report FILE brand|month FROM TO`, `report FILE query FROM TO TIER` (by brand and month, of the
// customers of a tier), `report FILE tuples FROM TO` (by the names of product and customer and the month, the sums by SQLite's own GROUP BY), or
// `report FILE fact`. bench/report.py builds and runs it.
#include <algorithm>
#include <charconv>
#include <cstdint>
#include <cstdio>
#include <cstdlib>
#include <cstring>
#include <numeric>
#include <sqlite3.h>
#include <string>
#include <unordered_map>
#include <vector>

static sqlite3 *file;

static void check(bool is_good) {
    if (!is_good) {
        std::fprintf(stderr, "failed: %s\n", sqlite3_errmsg(file));
        std::exit(3);
    }
}

static sqlite3_stmt *prepared(const char *text) {
    sqlite3_stmt *statement;
    check(sqlite3_prepare_v2(file, text, -1, &statement, nullptr) == SQLITE_OK);
    return statement;
}

static bool steps(sqlite3_stmt *statement) {
    int answer = sqlite3_step(statement);
    check(answer == SQLITE_ROW || answer == SQLITE_DONE);
    return answer == SQLITE_ROW;
}

struct Sums {
    int64_t lines = 0, quantity = 0, amount = 0, cost = 0;
    void add(int64_t more_quantity, int64_t more_amount, int64_t more_cost) {
        lines += 1;
        quantity += more_quantity;
        amount += more_amount;
        cost += more_cost;
    }
};

static std::string money(int64_t hundredths) {
    char text[32];
    uint64_t size = hundredths < 0 ? -(uint64_t)hundredths : (uint64_t)hundredths;
    std::snprintf(text, sizeof text, "%s%llu.%02llu", hundredths < 0 ? "-" : "", (unsigned long long)(size / 100), (unsigned long long)(size % 100));
    return text;
}

static void print_line(const Sums &sums, const std::string &label) {
    std::printf("%8lld %10lld %14s %14s %14s  %s\n", (long long)sums.lines, (long long)sums.quantity, money(sums.amount).c_str(), money(sums.cost).c_str(),
                money(sums.amount - sums.cost).c_str(), label.c_str());
}

static int64_t day_key(const char *day) {
    return std::atoll(day) * 10000 + std::atoll(day + 5) * 100 + std::atoll(day + 8);
}

// The labels of a column, and the place of each key's one among them.
struct Labels {
    std::vector<std::string> texts;
    std::unordered_map<int64_t, size_t> by_key;

    explicit Labels(const char *text) {
        std::unordered_map<std::string, size_t> places;
        sqlite3_stmt *rows = prepared(text);
        while (steps(rows)) {
            std::string label((const char *)sqlite3_column_text(rows, 1), sqlite3_column_bytes(rows, 1));
            auto [place, is_new] = places.try_emplace(label, texts.size());
            if (is_new) texts.push_back(label);
            by_key[sqlite3_column_int64(rows, 0)] = place->second;
        }
        sqlite3_finalize(rows);
    }

    // the places in order of the labels' bytes
    std::vector<size_t> order() const {
        std::vector<size_t> order(texts.size());
        std::iota(order.begin(), order.end(), 0);
        std::sort(order.begin(), order.end(), [&](size_t one, size_t other) { return texts[one] < texts[other]; });
        return order;
    }
};

static sqlite3_stmt *facts_between(const char *text, const char *from, const char *to) {
    sqlite3_stmt *facts = prepared(text);
    sqlite3_bind_int64(facts, 1, day_key(from));
    sqlite3_bind_int64(facts, 2, day_key(to));
    return facts;
}

// One query for the labels, one scan of the facts, sums by label.
static void report(const char *name, const char *labels_text, const char *facts_text, const char *from, const char *to) {
    Labels labels(labels_text);
    std::vector<Sums> sums(labels.texts.size());
    Sums total;
    sqlite3_stmt *facts = facts_between(facts_text, from, to);
    while (steps(facts)) {
        int64_t quantity = sqlite3_column_int64(facts, 1), amount = sqlite3_column_int64(facts, 2), cost = sqlite3_column_int64(facts, 3);
        sums[labels.by_key.at(sqlite3_column_int64(facts, 0))].add(quantity, amount, cost);
        total.add(quantity, amount, cost);
    }
    sqlite3_finalize(facts);
    std::printf("report %s was %s %s\n   lines   quantity         amount           cost         margin  label\n", name, from, to);
    for (size_t place : labels.order())
        if (sums[place].lines > 0) print_line(sums[place], labels.texts[place]);
    print_line(total, "total");
}

static void add_text(std::string &line, const char *text, size_t size) {
    if (!std::memchr(text, ',', size) && !std::memchr(text, '"', size) && !std::memchr(text, '\n', size) && !std::memchr(text, '\r', size)) {
        line.append(text, size);
        return;
    }
    line += '"';
    for (size_t place = 0; place < size; place++) {
        if (text[place] == '"') line += '"';
        line += text[place];
    }
    line += '"';
}

// One scan of the facts, sums by brand and month, for the customers of a tier.
static void query(const char *from, const char *to, const char *tier) {
    Labels brands("SELECT surrogate, a2 FROM product"), months("SELECT date_key, substr(iso, 1, 7) FROM calendar"), tiers("SELECT surrogate, a1 FROM customer");
    size_t asked = std::find(tiers.texts.begin(), tiers.texts.end(), tier) - tiers.texts.begin(), width = months.texts.size();
    std::vector<Sums> sums(brands.texts.size() * width);
    sqlite3_stmt *facts = facts_between("SELECT product_key, day, customer_key, quantity, amount, cost FROM fact WHERE day BETWEEN ? AND ?", from, to);
    while (steps(facts))
        if (tiers.by_key.at(sqlite3_column_int64(facts, 2)) == asked)
            sums[brands.by_key.at(sqlite3_column_int64(facts, 0)) * width + months.by_key.at(sqlite3_column_int64(facts, 1))].add(
                sqlite3_column_int64(facts, 3), sqlite3_column_int64(facts, 4), sqlite3_column_int64(facts, 5));
    sqlite3_finalize(facts);
    std::printf("product.brand:was,date.month,lines,quantity,amount,cost,margin\n");
    std::vector<size_t> by_month = months.order();
    for (size_t brand : brands.order())
        for (size_t month : by_month) {
            const Sums &them = sums[brand * width + month];
            if (them.lines == 0) continue;
            std::string line;
            add_text(line, brands.texts[brand].data(), brands.texts[brand].size());
            std::printf("%s,%s,%lld,%lld,%s,%s,%s\n", line.c_str(), months.texts[month].c_str(), (long long)them.lines, (long long)them.quantity,
                        money(them.amount).c_str(), money(them.cost).c_str(), money(them.amount - them.cost).c_str());
        }
}

static void add_column(std::string &line, sqlite3_stmt *rows, int column) {
    add_text(line, (const char *)sqlite3_column_text(rows, column), sqlite3_column_bytes(rows, column));
    line += ',';
}

// All by one statement.
static void tuples(const char *from, const char *to) {
    sqlite3_stmt *rows = facts_between(
        "SELECT product.a1, customer.a1, substr(calendar.iso, 1, 7), count(*), sum(quantity), sum(amount), sum(cost) FROM fact"
        " JOIN product ON product.surrogate = fact.product_key JOIN customer ON customer.surrogate = fact.customer_key"
        " JOIN calendar ON calendar.date_key = fact.day WHERE fact.day BETWEEN ? AND ? GROUP BY 1, 2, 3 ORDER BY 1, 2, 3",
        from, to);
    std::printf("product.name:is,customer.name:is,date.month,lines,quantity,amount,cost,margin\n");
    std::string line;
    while (steps(rows)) {
        int64_t amount = sqlite3_column_int64(rows, 5), cost = sqlite3_column_int64(rows, 6);
        line.clear();
        for (int column = 0; column < 3; column++) add_column(line, rows, column);
        std::printf("%s%lld,%lld,%s,%s,%s\n", line.c_str(), (long long)sqlite3_column_int64(rows, 3), (long long)sqlite3_column_int64(rows, 4),
                    money(amount).c_str(), money(cost).c_str(), money(amount - cost).c_str());
    }
    sqlite3_finalize(rows);
}

static void dump() {
    sqlite3_stmt *rows = prepared("SELECT * FROM fact ORDER BY ticket, line");
    int count = sqlite3_column_count(rows);
    std::string line;
    for (int column = 0; column < count; column++) {
        if (column > 0) line += ',';
        line += sqlite3_column_name(rows, column);
    }
    line += '\n';
    std::fwrite(line.data(), 1, line.size(), stdout);
    while (steps(rows)) {
        line.clear();
        add_text(line, (const char *)sqlite3_column_text(rows, 0), sqlite3_column_bytes(rows, 0));
        for (int column = 1; column < count; column++) {
            char digits[24];
            char *end = std::to_chars(digits, digits + sizeof digits, (long long)sqlite3_column_int64(rows, column)).ptr;
            line += ',';
            line.append(digits, end - digits);
        }
        line += '\n';
        std::fwrite(line.data(), 1, line.size(), stdout);
    }
    sqlite3_finalize(rows);
}

int main(int count, char **words) {
    if (count < 3) return 4;
    check(sqlite3_open_v2(words[1], &file, SQLITE_OPEN_READONLY | SQLITE_OPEN_NOMUTEX, nullptr) == SQLITE_OK);
    std::string job = words[2];
    if (job == "fact" && count == 3)
        dump();
    else if (job == "brand" && count == 5)
        report("product.brand", "SELECT surrogate, a2 FROM product", "SELECT product_key, quantity, amount, cost FROM fact WHERE day BETWEEN ? AND ?", words[3], words[4]);
    else if (job == "month" && count == 5)
        report("date.month", "SELECT date_key, substr(iso, 1, 7) FROM calendar", "SELECT day, quantity, amount, cost FROM fact WHERE day BETWEEN ? AND ?", words[3], words[4]);
    else if (job == "query" && count == 6)
        query(words[3], words[4], words[5]);
    else if (job == "tuples" && count == 5)
        tuples(words[3], words[4]);
    else
        return 4;
    sqlite3_close(file);
    return std::fflush(stdout) == 0 ? 0 : 3;
}
