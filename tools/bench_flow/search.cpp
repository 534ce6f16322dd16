// A plain C++ search for ways or a cut, written from docs/FORMATS.md and the rules of the search alone.
// It reads a net, and prints what `plan` prints.
#include <fstream>
#include <iostream>
#include <iterator>
#include <queue>
#include <string>
#include <vector>

using namespace std;

struct Line {
    int from, to;
};

static vector<Line> lines;
static vector<vector<int>> out_of, into;

static string shown(int k) {
    return to_string(k) + " (" + to_string(lines[k].from) + "-" + to_string(lines[k].to) + ")";
}

// What is told of one listener; false if it has a cut.
static bool listen(int places, int rate, int listener, string &told) {
    told = "listener " + to_string(listener);
    vector<char> used(lines.size(), 0);
    for (int found = 0; found < rate; found++) {
        vector<char> reached(places, 0);
        vector<int> over(places, -1), before(places, -1);
        queue<int> waiting;
        reached[0] = 1;
        waiting.push(0);
        while (!waiting.empty() && !reached[listener]) {
            int p = waiting.front();
            waiting.pop();
            for (int k : out_of[p])
                if (!used[k] && !reached[lines[k].to]) {
                    reached[lines[k].to] = 1;
                    over[lines[k].to] = k;
                    before[lines[k].to] = p;
                    waiting.push(lines[k].to);
                }
            for (int k : into[p])
                if (used[k] && !reached[lines[k].from]) {
                    reached[lines[k].from] = 1;
                    over[lines[k].from] = k;
                    before[lines[k].from] = p;
                    waiting.push(lines[k].from);
                }
        }
        if (!reached[listener]) {
            vector<int> across;
            for (size_t k = 0; k < lines.size(); k++)
                if (reached[lines[k].from] && !reached[lines[k].to]) across.push_back(k);
            told += ": cut, " + to_string(across.size()) + " lines lead out\n";
            for (int k : across) told += "  " + shown(k) + "\n";
            return false;
        }
        for (int p = listener; p != 0; p = before[p]) used[over[p]] ^= 1;
    }
    told += "\n";
    for (int way = 1; way <= rate; way++) {
        told += "  way " + to_string(way) + ": ";
        for (int p = 0; p != listener;) {
            int k = 0;
            for (int j : out_of[p])
                if (used[j]) {
                    k = j;
                    break;
                }
            if (p != 0) told += ", ";
            told += shown(k);
            used[k] = 0;
            p = lines[k].to;
        }
        told += "\n";
    }
    return true;
}

int main(int count, char **words) {
    if (count != 2) return 1;
    ifstream file(words[1], ios::binary);
    vector<unsigned char> b((istreambuf_iterator<char>(file)), istreambuf_iterator<char>());
    auto word = [&](size_t i) { return b[i] * 256 + b[i + 1]; };
    int places = word(1), n = word(3);
    out_of.resize(places);
    into.resize(places);
    for (int k = 0; k < n; k++) {
        Line l = {word(5 + 4 * k), word(7 + 4 * k)};
        lines.push_back(l);
        out_of[l.from].push_back(k);
        into[l.to].push_back(k);
    }
    int rate = b[5 + 4 * n], listeners = b[6 + 4 * n];
    // a cut is told alone
    string all;
    for (int i = 0; i < listeners; i++) {
        string told;
        if (!listen(places, rate, word(7 + 4 * n + 2 * i), told)) {
            all = told;
            break;
        }
        all += told;
    }
    cout << all;
}
