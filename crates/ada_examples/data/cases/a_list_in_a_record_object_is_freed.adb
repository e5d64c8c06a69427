with Ada.Text_IO; with Ada.Unchecked_Deallocation; with Run_Input;
procedure Main is
type Node; type Link is access Node;
type Node is record Value : Integer := 0; Next : Link; end record;
procedure Free is new Ada.Unchecked_Deallocation (Node, Link);
type List is record Head : Link; Count : Integer := 5; end record;

R : List; X : Link;
begin
for I in 1 .. 3 loop R.Head := new Node'(I, R.Head); end loop;
while R.Head /= null loop
X := R.Head; R.Head := null;
Ada.Text_IO.Put_Line (Integer'Image (X.Value));
R.Head := X.Next; X.Next := null; Free (X);
end loop;
if R.Head = null then Ada.Text_IO.Put_Line ("none"); end if;
end Main;
