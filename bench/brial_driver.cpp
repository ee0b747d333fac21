// The same answers by BRiAl: reads a file as interp does, and prints the least polynomials and, with the word basis, the
// reduced bases by ascending lead. It takes no comment behind a row, no names that are not plain, and no file with a fault.
// With the word gates it reads an AIGER file in the ASCII form, whose gates stand in order and whose inputs and outputs all
// have names, and prints the polynomials of the outputs, which it finds gate by gate. Three gates that make an exclusive or
// or a multiplexer are one.
#include <polybori/groebner/interpolate.h>
#include <polybori/polybori.h>

#include <algorithm>
#include <iostream>
#include <sstream>
#include <string>
#include <vector>

using namespace polybori;

struct Row {
    BooleSet cube;
    std::string outputs;
};

struct File {
    int inputs = 0;
    int outputs = 0;
    std::string kind = "fd";
    std::vector<std::string> rows;
};

static File read(std::istream &in) {
    File file;
    std::string line, word;
    while (std::getline(in, line)) {
        std::istringstream words(line);
        if (!(words >> word)) continue;
        if (word == ".i") words >> file.inputs;
        else if (word == ".o") words >> file.outputs;
        else if (word == ".type") words >> file.kind;
        else if (word == ".e") break;
        else if (word[0] != '.' && word[0] != '#') {
            std::string row = word;
            while (words >> word) row += word;
            file.rows.push_back(row);
        }
    }
    return file;
}

static Row row_of(const BoolePolyRing &ring, const File &file, const std::string &text) {
    BooleSet cube = ring.one();
    for (int i = file.inputs - 1; i >= 0; i--) {
        if (text[i] == '1') cube = cube.change(i);
        else if (text[i] != '0') cube = cube.unite(cube.change(i));
    }
    return {cube, text.substr(file.inputs)};
}

static BooleSet cover(const BoolePolyRing &ring, const std::vector<Row> &rows, int output, const std::string &symbols) {
    BooleSet set = ring.zero();
    for (const Row &row : rows)
        if (symbols.find(row.outputs[output]) != std::string::npos) set = set.unite(row.cube);
    return set;
}

static void print(const std::string &left, const BoolePolynomial &polynomial, const std::vector<std::string> &names) {
    std::cout << left << " = ";
    if (polynomial.isZero()) std::cout << "0";
    const char *plus = "";
    for (BoolePolynomial::const_iterator term = polynomial.begin(); term != polynomial.end(); ++term) {
        std::cout << plus;
        plus = " + ";
        const char *times = "";
        for (int i : *term) {
            std::cout << times << names[i];
            times = "*";
        }
        if (*times == 0) std::cout << '1';
    }
    std::cout << '\n';
}

struct Gate {
    int left = 0;
    int right = 0;
};

struct Circuit {
    int inputs = 0;
    std::vector<int> outputs;
    std::vector<Gate> gates;
    std::vector<std::string> in_names;
    std::vector<std::string> out_names;
};

static Circuit read_gates(std::istream &in) {
    Circuit circuit;
    std::string word;
    int variables, latches, outputs, gates, own;
    in >> word >> variables >> circuit.inputs >> latches >> outputs >> gates;
    for (int i = 0; i < circuit.inputs; i++) in >> own;
    circuit.outputs.resize(outputs);
    for (int &literal : circuit.outputs) in >> literal;
    circuit.gates.resize(gates);
    for (Gate &gate : circuit.gates) in >> own >> gate.left >> gate.right;
    circuit.in_names.resize(circuit.inputs);
    circuit.out_names.resize(outputs);
    while (in >> word && word != "c") {
        std::string &name = (word[0] == 'i' ? circuit.in_names : circuit.out_names)[std::stoi(word.substr(1))];
        in >> name;
    }
    return circuit;
}

// The polynomials of variables as far as they were asked for, each gate's by those of its operands.
struct Built {
    const Circuit &circuit;
    std::vector<BoolePolynomial> found;
    std::vector<bool> known;

    Built(const BoolePolyRing &ring, const Circuit &circuit)
        : circuit(circuit), found(1 + circuit.inputs + circuit.gates.size(), BoolePolynomial(ring)), known(found.size()) {
        known[0] = true;
        for (int i = 0; i < circuit.inputs; i++) {
            found[i + 1] = BooleVariable(i, ring);
            known[i + 1] = true;
        }
    }

    BoolePolynomial of(int literal) {
        if (!known[literal / 2]) {
            found[literal / 2] = of_gate(circuit.gates[literal / 2 - 1 - circuit.inputs]);
            known[literal / 2] = true;
        }
        return literal % 2 ? found[literal / 2] + true : found[literal / 2];
    }

    const Gate *inner(int literal) const {
        int place = literal / 2 - 1 - circuit.inputs;
        return literal % 2 && place >= 0 ? &circuit.gates[place] : nullptr;
    }

    BoolePolynomial chosen(int select, int one, int zero) {
        if (one == (zero ^ 1)) return of(select) + of(zero);
        BoolePolynomial low = of(zero);
        return low + of(select) * (of(one) + low);
    }

    BoolePolynomial of_gate(const Gate &gate) {
        const Gate *u = inner(gate.left), *w = inner(gate.right);
        if (u && w) {
            for (bool first : {true, false})
                for (bool other : {true, false}) {
                    int select = first ? u->left : u->right, without = other ? w->left : w->right;
                    if (select == (without ^ 1))
                        return chosen(select, (first ? u->right : u->left) ^ 1, (other ? w->right : w->left) ^ 1);
                }
        }
        return of(gate.left) * of(gate.right);
    }
};

static void print_gates() {
    Circuit circuit = read_gates(std::cin);
    BoolePolyRing ring(circuit.inputs);
    Built built(ring, circuit);
    for (size_t place = 0; place < circuit.outputs.size(); place++)
        print(circuit.out_names[place], built.of(circuit.outputs[place]), circuit.in_names);
}

int main(int count, char **words) {
    std::ios::sync_with_stdio(false);
    if (count > 1 && std::string(words[1]) == "gates") {
        print_gates();
        return 0;
    }
    bool basis = count > 1 && std::string(words[1]) == "basis";
    File file = read(std::cin);
    std::vector<std::string> names;
    for (int i = 0; i < file.inputs; i++) names.push_back("x" + std::to_string(i + 1));
    BoolePolyRing ring(file.inputs);
    std::vector<Row> rows;
    for (const std::string &text : file.rows) rows.push_back(row_of(ring, file, text));
    BooleSet all = ring.one();
    BooleMonomial variables(ring);
    for (int i = file.inputs - 1; i >= 0; i--) {
        all = all.unite(all.change(i));
        variables *= BooleVariable(i, ring);
    }
    bool has_off = file.kind == "fr" || file.kind == "fdr";
    bool has_dc = file.kind == "fd" || file.kind == "fdr";
    for (int output = 0; output < file.outputs; output++) {
        BooleSet on = cover(ring, rows, output, "14");
        BooleSet dc = has_dc ? cover(ring, rows, output, "-2") : BooleSet(ring.zero());
        BooleSet zeros = has_off ? cover(ring, rows, output, "0").diff(dc) : all.diff(on.unite(dc));
        BooleSet ones = on.diff(dc);
        print("f" + std::to_string(output + 1), groebner::interpolate_smallest_lex(zeros, ones), names);
        if (!basis) continue;
        std::vector<BoolePolynomial> elements = groebner::variety_lex_groebner_basis(zeros.unite(ones), variables);
        std::sort(elements.begin(), elements.end(),
                  [](const BoolePolynomial &a, const BoolePolynomial &b) { return a.lead() < b.lead(); });
        for (const BoolePolynomial &element : elements) print("0", element, names);
    }
}
