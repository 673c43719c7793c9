{
  null.x;
}
