int channel;
int threshold;
int enabled;
int main(void) {
  threshold = 100;
  enabled = 1;
  threshold = 250;
  channel = 0;
  return 0;
}
