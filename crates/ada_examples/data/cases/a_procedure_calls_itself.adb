with Ada.Text_IO;
procedure Main is
procedure Again (N : Integer) is begin Again (N - 1); end Again;
begin Again (3); end Main;
