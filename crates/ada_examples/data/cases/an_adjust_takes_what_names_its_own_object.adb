with Ada.Finalization; with Ada.Text_IO;
procedure Main is
   type Desk;
   type Place is access Desk;
   type Card is new Ada.Finalization.Controlled with record Lies : Place; end record;
   overriding procedure Adjust (Object : in out Card);
   type Node is record Top : Card; end record;
   type Link is access Node;
   type Desk is record Holds : Link; end record;
   overriding procedure Adjust (Object : in out Card) is
      Held : Link;
   begin
      Held := Object.Lies.Holds;
      Object.Lies.Holds := null;
      if Held = null then
         Ada.Text_IO.Put_Line ("no node");
      else
         Ada.Text_IO.Put_Line ("a node");
      end if;
      Object.Lies.Holds := Held;
      Object.Lies := null;
   exception
      when others => Object.Lies := null;
   end Adjust;
   First : Link := new Node;
   Other : Link := new Node;
begin
   First.Top.Lies := new Desk;
   First.Top.Lies.Holds := Other;
   First.Top.Lies.Holds.all := First.all;
   if First.Top.Lies.Holds.Top.Lies = null then
      Ada.Text_IO.Put_Line ("copied");
   end if;
end Main;
