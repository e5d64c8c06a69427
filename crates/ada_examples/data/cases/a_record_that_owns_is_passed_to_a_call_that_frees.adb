with Ada.Text_IO;
with Ada.Unchecked_Deallocation;

procedure Main is
   type Node;
   type Link is access Node;
   type Node is record
      Value : Integer := 0;
      Next  : Link;
   end record;
   procedure Free is new Ada.Unchecked_Deallocation (Node, Link);
   type Holder is record
      Top : Link;
   end record;
   type Grip is access Holder;
   procedure Empty (H : in out Holder) is
   begin
      Free (H.Top);
   end Empty;
   G : Grip := new Holder;
begin
   G.Top := new Node'(2, null);
   Empty (G.all);
   if G.Top = null then
      Ada.Text_IO.Put_Line (Integer'Image (0));
   end if;
end Main;
