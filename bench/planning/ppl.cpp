// The least cost of a problem by PPL's MIP solver. The problem is read from a file of whole numbers: the numbers of
// columns and of rows; for each column its ends and whether it has to be whole; for each row whether it is an
// equation, its bound and its terms; the terms of the cost. Terms are their number, and then columns and factors.
#include <fstream>
#include <iostream>
#include <ppl.hh>

using namespace Parma_Polyhedra_Library;

static Linear_Expression terms(std::ifstream &from) {
  Linear_Expression sum;
  size_t count, column;
  Coefficient factor;
  for (from >> count; count > 0; --count) {
    from >> column >> factor;
    sum += factor * Variable(column);
  }
  return sum;
}

int main(int, char **words) {
  std::ifstream from(words[1]);
  size_t columns, rows;
  from >> columns >> rows;
  MIP_Problem problem(columns);
  Variables_Set whole;
  for (size_t column = 0; column < columns; ++column) {
    Coefficient scale, low, high;
    bool is_whole;
    from >> scale >> low >> high >> is_whole;
    problem.add_constraint(scale * Variable(column) >= low);
    problem.add_constraint(scale * Variable(column) <= high);
    if (is_whole)
      whole.insert(column);
  }
  for (; rows > 0; --rows) {
    bool is_equation;
    Coefficient bound;
    from >> is_equation >> bound;
    Linear_Expression sum = terms(from);
    problem.add_constraint(is_equation ? Constraint(sum == bound) : Constraint(sum <= bound));
  }
  problem.add_to_integer_space_dimensions(whole);
  problem.set_objective_function(terms(from));
  problem.set_optimization_mode(MINIMIZATION);
  switch (problem.solve()) {
  case UNFEASIBLE_MIP_PROBLEM:
    std::cout << "none\n";
    break;
  case UNBOUNDED_MIP_PROBLEM:
    std::cout << "unbounded\n";
    break;
  case OPTIMIZED_MIP_PROBLEM: {
    Coefficient above, below;
    problem.optimal_value(above, below);
    std::cout << "least " << above << "/" << below << "\n";
  }
  }
}
