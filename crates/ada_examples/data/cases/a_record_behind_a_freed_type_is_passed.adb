with Ada.Text_IO;
with Ada.Unchecked_Deallocation;

procedure Main is
   type Node;
   type Link is access Node;
   type Node is record
      Value : Integer := 0;
      Next  : Link;
   end record;
   procedure Free is new Ada.Unchecked_Deallocation (Node, Link);
   type Holder is record
      Top : Link;
   end record;
   type Grip is access Holder;
   procedure Drop (N : Node; L : in out Link) is
   begin
      Free (L);
   end Drop;
   A : Link := new Node'(1, null);
   G : Grip := new Holder;
begin
   G.Top := new Node'(2, null);
   Drop (G.Top.all, A);
end Main;
