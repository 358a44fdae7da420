int g;
int main(void) {
  g = 5;
  return 0;
}
