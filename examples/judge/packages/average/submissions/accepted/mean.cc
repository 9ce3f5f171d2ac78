// With the header that contests name, streams, and a hash map, which holds a float.
#include <bits/stdc++.h>
using namespace std;

int main() {
  ios::sync_with_stdio(false);
  cin.tie(nullptr);
  int n;
  cin >> n;
  unordered_map<long long, int> counts;
  for (long long x; n > 0 && cin >> x; --n)
    ++counts[x];
  auto add = [](pair<double, int> sum, const pair<const long long, int> &it) { return pair(sum.first + double(it.first) * it.second, sum.second + it.second); };
  auto [sum, count] = accumulate(counts.begin(), counts.end(), pair(0.0, 0), add);
  cout << fixed << setprecision(7) << sum / count << endl;
}
